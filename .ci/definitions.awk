# The definitions in .antt, .rt and .h files, one a line: its file, and its name, which is "fn name" of a function, Type::name in an impl, and
# "fact name" of a fact that a function's own proof shows, by the check's name for it.

function say(name) { print FILENAME "\t" name }

# the names before the colon of a signature
function signature(s,    names, n, i) {
  sub(/ :( .*)?$/, "", s)
  n = split(s, names, " ")
  for (i = 1; i <= n; i++) say(names[i])
}

# a line of an .antt file: a record or data type, or the signature of a type, value or function
function of_antt(s) {
  while (sub(/^(pub|abbrev|unfoldable) /, "", s));
  if (s ~ /^(--|use |let |module |mod |unfolding )/) return
  if (s ~ /^(record|data) [^{]/) { sub(/^[a-z]+ /, "", s); sub(/ .*/, "", s); say(s) }
  else if (match(s, /^[^ ():={}]+( [^ ():={}]+)* :( |$)/)) signature(substr(s, 1, RLENGTH))
}

# a line of a function's own proof at which the answer to a fact begins
function of_fact(s) {
  match(s, /(tie\.Need-|goal\.)[^ ]+/)
  s = substr(s, RSTART, RLENGTH)
  sub(/^(tie\.Need-|goal\.)/, "", s)
  say("fact " s)
}

# the first word after the first, without what hangs on it
function second(s) {
  sub(/^[^ ]+ /, "", s)
  sub(/[^A-Za-z0-9_].*$/, "", s)
  return s
}

# a name, and where it is in an impl, struct or enum, also with that before it
function say_in(place, name) {
  say(name)
  if (place) say(place "::" name)
}

# a line of an .rt file; `owner` is the impl that it is in, `body` the struct or enum
function of_rt(s) {
  if ($0 ~ /^}/) owner = body = ""
  sub(/^pub(\([a-z]+\))? /, "", s)
  sub(/^(extern "C" |const |unsafe )*fn /, "fn ", s)
  if (s ~ /^impl/) { sub(/^impl(<[^>]*>)?/, "impl", s); owner = second(s) }
  else if (s ~ /^fn /) say((owner ? owner "::" : "fn ") second(s))
  else if (s ~ /^const /) say_in(owner, second(s))
  else if (s ~ /^(struct|enum|type) /) { say(second(s)); if (s ~ /[{]$/) body = second(s) }
  else if (body && $0 ~ /^    [^ ]/ && match(s, /^[A-Za-z_0-9]+/)) say_in(body, substr(s, 1, RLENGTH))
}

# a line of a header of C: a struct, a function or a field
function of_header(s) {
  if ($0 ~ /^typedef struct /) say($3)
  if (!match(s, /^[a-z0-9_]+ [*]?[a-z0-9_]+[(;]/)) return
  s = substr(s, 1, RLENGTH - 1)
  sub(/^.* [*]?/, "", s)
  say(s)
}

FNR == 1 { owner = body = "" }
{
  line = $0
  sub(/^ +/, "", line)
  if (FILENAME ~ /\/(Proof|Answers|Invariants)\.antt$/ && line ~ /(tie\.Need-|goal\.)/) of_fact(line)
  else if (FILENAME ~ /\.antt$/) of_antt(line)
  else if (FILENAME ~ /\.rt$/) of_rt(line)
  else of_header(line)
}
