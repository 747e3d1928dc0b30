# The words in backticks of the documents, one a line, in order: where it stands, what it is taken for, the word, and where it must be, or "-".

BEGIN {
  n = split(crates, list, " "); for (i = 1; i <= n; i++) is_crate[list[i]] = 1
  n = split(tops, list, " "); for (i = 1; i <= n; i++) is_top[list[i]] = 1
}

function say(line, role, w, places) { print doc ":" line "\t" role "\t" w "\t" (places == "" ? "-" : places) }

# ---- the look of a word

function is_label(w,    part) { return split(w, part, "/") == 2 && (part[1] in is_crate) && part[2] ~ /^[a-z0-9_]+$/ }

function is_path(w) { return w ~ /\// || w ~ /\.(antt|rt|md|txt|h|c|sh|edit|sflw|a)$/ || w == "stdin" || w == "stdout" }

function look(w) {
  if (w ~ /^(\.\/sflw|\.ci\/|rt |test\/run\.sh )/) return "command"
  if (w ~ / /) return "literal"
  if (w ~ /^[A-Za-z0-9_]+(::[A-Za-z0-9_]+)+$/) return "call"
  if (w ~ /^returns(-|$)|^loop-.*-(init|preserved|smaller)|-requires(-|$)|^(overflow|nonzero)_[a-z]+-|^(slice_|offset_)?bounds-|^invariant_of-/) return "fact"
  if (is_label(w)) return "label"
  return is_path(w) ? "path" : "name"
}

# ---- the words of a text, and the clause in which each stands

# the clauses that begin and end in the text between two words
function clauses(between,    k, c, after) {
  for (k = 1; k <= length(between); k++) {
    c = substr(between, k, 1)
    after = substr(between, k + 1)
    if (c == "(") open[++depth] = ++clause_count
    else if (c == ")" && depth > 0) depth--
    else if (c == ";" || (c == "." && after ~ /^[ \n]+([A-Z"*]|$)/)) open[depth] = ++clause_count
  }
}

# adds the words of a paragraph or a cell; in a table, those of a column
function take(text, line, in_column,    part, n, i) {
  depth = 0
  open[0] = ++clause_count
  n = split(text, part, "`")
  for (i = 1; i <= n; i++) {
    if (i % 2) clauses(part[i])
    else {
      word[++words] = part[i]; kind[words] = look(part[i]); clause[words] = open[depth]
      before[words] = part[i - 1]; at[words] = line; column[words] = in_column
    }
    line += gsub(/\n/, "\n", part[i])
  }
  if (n && n % 2 == 0) say(line, "open", part[n], "-")
}

# ---- where a path is

function trimmed(w) { sub(/\/$/, "", w); return w }
function from_top(w) { sub(/\/.*/, "", w); return w in is_top }
function folder_of(w) { if (w !~ /\//) return ""; sub(/[^\/]*$/, "", w); return w }

# a place in each crate of the context
function in_crates(rest,    list, n, i, all) {
  n = split(context, list, " ")
  for (i = 1; i <= n; i++) all = all (i > 1 ? " " : "") "crates/" list[i] rest
  return all
}

# the folders that follow it: "`B.antt` in `crates/a/specs`", "`A.antt`, `B.antt` in ..", "`C.antt` in `crates/a`, `crates/b`"
function folders_after(i, w,    j, all) {
  for (j = i + 1; j <= words && clause[j] == clause[i] && kind[j] == "path" && before[j] ~ /^,?( and)?( in)? $/; j++)
    if (from_top(word[j]) && word[j] !~ /\.[a-z]+$/) all = all " " trimmed(word[j]) "/" w
  return substr(all, 2)
}

# the folder of the path before it
function folder_before(i,    j) {
  for (j = i - 1; j >= 1; j--) if (clause[j] == clause[i] && kind[j] == "path" && from_top(word[j])) return folder_of(word[j])
  return ""
}

function path_places(i,    w, found) {
  w = trimmed(word[i])
  if (from_top(w)) return w
  if (found = folders_after(i, w)) return found
  if (word[i] !~ /\// && (found = folder_before(i))) return found w
  if (context) return in_crates((w ~ /^[^\/]*\.antt$/ ? "/specs/" : w ~ /^[^\/]*\.rt$/ ? "/src/" : "/") w)
  return (word[i] ~ /\// || w ~ /^std/ ? "crates/*/" : folder_of(doc)) w
}

# ---- where a name is

# the first path after it in its clause that can define something
function path_after(i,    j, found) {
  for (j = i + 1; j <= words; j++) {
    if (clause[j] != clause[i] || kind[j] != "path") continue
    found = path_places(j)
    if (found ~ /^(crates|include)\//) return found
  }
  return ""
}

# the paths in the column "File" of its row
function row_files(i,    j, all) {
  if (!column[i] || head[column[i]] == "File") return ""
  for (j = 1; j <= words; j++) if (head[column[j]] == "File" && word[j] ~ /\.[a-z]+$/) all = all " " path_places(j)
  return substr(all, 2)
}

function name_places(i,    found) {
  if (found = path_after(i)) return found
  if (column[i] && head[column[i]] == "One outcome" && context) return in_crates("/proofs/Unique.antt")
  if (found = row_files(i)) return found
  if (item && lead) return lead
  return in_crates("")
}

# ---- what a word is taken for

# "`returns` of `f`" and "the walk of `f`"
function is_function(i) {
  if (before[i] ~ /walk of $/) return 1
  return i > 1 && clause[i - 1] == clause[i] && kind[i - 1] == "fact" && before[i] == " of "
}

# the function that facts are of, in the crate of the row or table
function proof_of(i,    j, f) {
  for (j = i + 1; j <= words && clause[j] == clause[i]; j++) {
    if (kind[j] == "fact") continue
    f = word[j]
    sub(/^.*::/, "", f)
    return is_function(j) && context ~ /^[a-z_]+$/ ? context "/" f : ""
  }
  return ""
}

function edit_place(owner, label,    part) {
  if (owner == "NAME" && split(label, part, "/") == 2) { owner = part[1]; label = part[2] }
  return "crates/" owner "/must-fail/" label ".edit"
}

function function_places(i,    found) {
  if (found = path_after(i)) return found
  return context ? in_crates("/src") : "crates"
}

function give(i,    c, w) {
  c = column[i]; w = word[i]
  if (c && edits_of[c]) say(at[i], "edit", w, edit_place(edits_of[c], w))
  else if (c && head[c] == "Crate") say(at[i], "crate", w, "crates.txt")
  else if (c && head[c] == "Call" && has_promises) say(at[i], "promise", w, "crates")
  else if (is_function(i) || (c && head[c] == "Call" && kind[i] == "name")) say(at[i], "function", w, function_places(i))
  else if (kind[i] == "fact") say(at[i], "fact", w, proof_of(i))
  else if (kind[i] == "label") say(at[i], "label", w, edit_place("NAME", w))
  else if (kind[i] == "path") say(at[i], "path", w, path_places(i))
  else if (kind[i] == "name") say(at[i], "name", w, name_places(i))
  else say(at[i], kind[i], w, "-")
}

function give_all(    i) {
  for (i = 1; i <= words; i++) give(i)
  words = 0
}

# ---- paragraphs, list items, headings and tables

# the last path of a paragraph that ends with a colon
function leads(    i) {
  if (text !~ /:$/) return ""
  for (i = words; i >= 1; i--) if (kind[i] == "path") return path_places(i)
  return ""
}

function end_of_text() {
  if (text == "") return
  context = heading_crate
  take(text, from, 0)
  if (!item) lead = leads()
  give_all()
  text = ""; item = 0
}

function end_of_document() {
  end_of_text()
  if (fence) say(fence_at, "open", "```", "-")
  fence = in_table = 0
  heading_crate = lead = ""
}

function heading(line) {
  heading_crate = lead = context = ""
  take(line, FNR, 0)
  if (line ~ /\(`[a-z_]+`\)$/) { heading_crate = word[words]; say(FNR, "crate", word[words--], "crates.txt") }
  give_all()
}

# the cells of a line of a table
function cells_of(line, cell,    n, i) {
  gsub(/^\||\|[ ]*$/, "", line)
  n = split(line, cell, "|")
  for (i = 1; i <= n; i++) gsub(/^ +| +$/, "", cell[i])
  return n
}

# the head of a table: which columns are of wrong programs, and whether the table is one of promises
function table_head(line,    n, i, owner) {
  split("", head); split("", edits_of)
  has_promises = 0
  table_crate = context = ""
  n = cells_of(line, head)
  for (i = 1; i <= n; i++) {
    take(head[i], FNR, 0)
    if (head[i] == "Promise") has_promises = 1
    if (!match(head[i], /`crates\/[A-Za-z_]+\/must-fail\/`/)) continue
    owner = substr(head[i], RSTART + 8, RLENGTH - 20)
    edits_of[i] = owner
    if (owner != "NAME") table_crate = owner
  }
  give_all()
}

# the crates that a row is of
function row_crates(    i, part, all) {
  for (i = 1; i <= words; i++) if (edits_of[column[i]] == "NAME" && split(word[i], part, "/") == 2) return part[1]
  for (i = 1; i <= words; i++) {
    split(word[i], part, "::")
    if (head[column[i]] == "Crate") all = all " " word[i]
    else if (head[column[i]] == "Call" && kind[i] == "call" && (part[1] in is_crate) && index(all " ", " " part[1] " ") == 0) all = all " " part[1]
  }
  if (all) return substr(all, 2)
  return table_crate ? table_crate : heading_crate
}

function table_row(line,    cell, n, i) {
  if (line ~ /^[-| :]+$/) return
  n = cells_of(line, cell)
  for (i = 1; i <= n; i++) take(cell[i], FNR, i)
  context = row_crates()
  give_all()
}

FNR == 1 { end_of_document(); doc = FILENAME }
/^ *```/ { end_of_text(); fence = !fence; fence_at = FNR; next }
fence { if ($0 ~ /^(\.\/sflw|\.ci\/|test\/)/) say(FNR, "command", $0, "-"); next }
/^\|/ { end_of_text(); if (in_table++) table_row($0); else table_head($0); next }
{ in_table = 0 }
/^#/ { end_of_text(); heading($0); next }
/^ *$/ { end_of_text(); next }
/^ *(-|[0-9]+\.) / { end_of_text(); item = 1 }
{ if (text == "") { text = $0; from = FNR } else text = text "\n" $0 }
END { end_of_document() }
