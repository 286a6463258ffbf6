# For the tests' scripts, which read this file in the root folder.
# must COMMAND..: runs it quietly; where it fails, shows what it said and counts one failure
must() {
  local said
  said=$("$@" 2>&1) && return
  printf '%s\n' "$said" '0 passed, 1 failed'
  exit 1
}
