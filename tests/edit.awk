# One must-fail edit: each text that it replaces stands in its file of the crate exactly once. With -v write=1 the files are changed.
# usage: awk -v crate=crates/NAME -v edit=FILE [-v write=1] -f tests/edit.awk FILE
function text_of(path,   line, all) {
  while ((getline line < path) > 0) all = all line "\n"
  close(path)
  return all
}
function fail(why) { print "edits: " edit ": " why; failed = 1; exit 1 }
/^file: / { path = crate "/" substr($0, 7); if (!(path in text)) text[path] = text_of(path) }
/^old: / { old = substr($0, 6) }
/^new:/ {
  new = substr($0, 5)
  sub(/^ /, "", new)
  if (text[path] == "") fail("there is no file " path)
  at = index(text[path], old)
  if (old == "" || !at) fail("its text is not in " path)
  rest = substr(text[path], at + length(old))
  if (index(rest, old)) fail("its text is in " path " more than once")
  if (new == old) fail("it changes nothing")
  text[path] = substr(text[path], 1, at - 1) new rest
  old = ""
  pairs++
}
END {
  if (failed) exit 1
  if (!pairs) { print "edits: " edit ": it has no text to replace"; exit 1 }
  if (write) for (path in text) printf "%s", text[path] > path
}
