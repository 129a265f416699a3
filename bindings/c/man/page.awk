# Writes a manual page in mdoc. The input is the sections that NAME.mdoc adds, then the help of the
# program and of each command, each after a form feed. The words are those of the help.

# The options, commands and placeholders of a row, with their macros.
function marked(words, n, i, word, found, all) {
  n = split(words, found, " ")
  for (i = 1; i <= n; i++) {
    word = found[i]
    if (word ~ /^\[<.*>\]$/) word = "Op Ar " substr(word, 3, length(word) - 4)
    else if (word ~ /^<.*>$/) word = "Ar " substr(word, 2, length(word) - 2)
    else if (word ~ /^-.*,$/) word = "Fl " substr(word, 2, length(word) - 2) " ,"
    else if (word ~ /^-/) word = "Fl " substr(word, 2)
    else if (word ~ /^[a-z]+$/) word = "Cm " word
    else if (word ~ /^[A-Z]+$/) word = "Ar " word
    all = all " " word
  }
  return all
}

# A line for each sentence.
function sentences(text) {
  gsub(/\\/, "\\e", text)
  gsub(/\. /, ".\n", text)
  return text "\n"
}

# Adds a paragraph. The sentences on the exit status of the program get their own section.
function end_paragraph() {
  if (help == 1 && paragraph ~ /The exit status is/ &&
      match(paragraph, /(A fault is|Faults are|The exit status is) /)) {
    status = sentences(substr(paragraph, RSTART))
    paragraph = substr(paragraph, 1, RSTART - 2)
  }
  if (paragraph != "") body = body (is_first ? "" : ".Pp\n") sentences(paragraph)
  if (paragraph != "") is_first = 0
  paragraph = ""
}

# Adds a row to the table.
function end_row(head) {
  if (row == "") return
  match(row, /  +/)
  head = marked(substr(row, 1, RSTART - 1))
  if (head ~ /^ Fl/ && head !~ /-(help|version)$/) options = options ".Op" head "\n"
  table = table ".It" head "\n" sentences(substr(row, RSTART + RLENGTH))
  row = ""
}

function end_block() {
  end_paragraph()
  end_row()
  if (table != "") body = body ".Bl -tag -width Ds\n" table ".El\n"
  table = ""
}

# The words of a usage after the options: `[NAME..]` is any number of them.
function operands(words, n, i, found, dots, all) {
  n = split(words, found, " ")
  for (i = 2; i <= n; i++) {
    if (found[i] == "[OPTIONS]") continue
    dots = found[i] ~ /\.\./ ? " ..\n" : "\n"
    all = all (found[i] ~ /^\[/ ? ".Op Ar " : ".Ar ")
    gsub(/[^A-Z]/, "", found[i])
    all = all found[i] dots
  }
  return all
}

function section(title, text) {
  if (text != "") printf ".Sh %s\n%s", title, text
  added[title] = ""
}

/^\f$/ { end_block(); help++; first = is_over = 0; next }
!help && /^\.Sh / { title = substr($0, 5); titles[++count] = title; next }
!help { added[title] = added[title] $0 "\n"; next }
is_over || /^Example:/ { is_over = 1; next }
!first { first = $0; next }
/^Usage: / {
  usage = substr($0, 8)
  if (help == 1) {
    short = first
    sub(/( \(|:).*/, "", short)
    own = usage
    is_first = added["DESCRIPTION"] == ""
  } else {
    gsub(/[<>]/, "", usage)
    body = body ".Ss " usage "\n"
    is_first = 1
  }
  paragraph = first == short ? "" : first
  end_paragraph()
}
/^Usage: /, /^$/ { next }
help > 1 && /^Options:$/, /^$/ { next }
/^$/ { end_block(); next }
/^(Arguments|Options|Commands):$/ {
  paragraph = "The " tolower(substr($0, 1, length($0) - 1)) " are:"
  end_paragraph()
  next
}
row != "" && /^     / && !/^ *-/ { sub(/^ */, " "); row = row $0; next }
/^  / && paragraph == "" { end_row(); row = $0; sub(/^ */, "", row); next }
{ paragraph = paragraph (paragraph == "" ? "" : " ") $0 }

END {
  if (short == "") exit 1
  end_block()
  printf ".Dd $Mdocdate$\n.Dt %s 1\n.Os\n", toupper(name)
  section("NAME", ".Nm " name "\n.Nd " tolower(substr(short, 1, 1)) substr(short, 2) "\n")
  if (added["SYNOPSIS"] == "")
    added["SYNOPSIS"] = ".Nm\n" options operands(own) ".Nm\n.Fl h | V\n"
  section("SYNOPSIS", added["SYNOPSIS"])
  section("DESCRIPTION", added["DESCRIPTION"] body)
  section("EXIT STATUS", status added["EXIT STATUS"])
  for (i = 1; i <= count; i++) section(titles[i], added[titles[i]])
}
