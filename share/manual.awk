# Makes the manual page of docs/COMMANDS.md, for troff's package man. -v version=VERSION
function plain(text) {
  gsub(/\\/, "\\e", text)
  gsub(/-/, "\\-", text)
  if (text ~ /^[.']/) text = "\\&" text
  return text
}
# Code in bold, links by their text alone.
function words(text, out, part, bold) {
  while (match(text, /\[[^]]*\]\([^)]*\)/)) {
    part = substr(text, RSTART + 1, RLENGTH - 2)
    sub(/\]\(.*/, "", part)
    text = substr(text, 1, RSTART - 1) part substr(text, RSTART + RLENGTH)
  }
  gsub(/\*\*/, "`", text)
  out = ""
  bold = 0
  while (match(text, /`+/)) {
    out = out plain(substr(text, 1, RSTART - 1)) (bold ? "\\fR" : "\\fB")
    bold = !bold
    text = substr(text, RSTART + RLENGTH)
  }
  return out plain(text)
}
function line(text) {
  text = words(text)
  print (text ~ /^[.']/ ? "\\&" text : text)
}
# The cells of a row; a bar within code is written \|.
function row(text, cells, count, at) {
  gsub(/\\\|/, "\001", text)
  sub(/^\| */, "", text)
  sub(/ *\|$/, "", text)
  count = split(text, cells, / *\| */)
  for (at = 1; at <= count; at++) gsub(/\001/, "|", cells[at])
  return count
}
function tell(cells, count, at, text) {
  print ".TP"
  line(cells[1])
  text = ""
  for (at = 2; at <= count; at++)
    if (cells[at] != "") text = text (text == "" ? "" : "; ") (count > 2 && head[at] != "" ? head[at] ": " : "") cells[at]
  line(text == "" ? "\\&" : text)
}
BEGIN {
  print ".TH CARTE 1 \"\" \"carte " version "\" \"User Commands\""
  print ".SH NAME\ncarte \\- a build engine over the names of a book, whose correctness is proved"
}
/^```/ {
  if (fenced) { print ".fi\n.RE"; fenced = 0 } else { fenced = 1; print ".PP\n.RS 4\n.nf" }
  next
}
fenced { print plain($0); next }
/^# / { print ".SH SYNOPSIS"; next }
/^## / { sub(/^## /, ""); print ".SH \"" toupper(plain($0)) "\""; next }
/^### / { sub(/^### /, ""); print ".SS \"" words($0) "\""; next }
/^\|[-| ]*$/ { next }
/^\|/ {
  count = row($0, cells)
  if (!tabled) { tabled = 1; for (at in head) delete head[at]; for (at = 1; at <= count; at++) head[at] = cells[at]; next }
  tell(cells, count)
  next
}
{ tabled = 0 }
/^$/ { print ".PP"; next }
/^[0-9]+\. / { print ".IP " $1 " 4"; sub(/^[0-9]+\. /, ""); line($0); next }
/^- / { print ".IP \\(bu 2"; sub(/^- /, ""); line($0); next }
{ line($0) }
