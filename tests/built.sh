# For scripts that have something built; they read this file in the root folder.
# is_old FILE: whether it is not there, or was written before a file that a check reads
is_old() {
  [ ! -e "$1" ] || [ -n "$(find crates.txt crates/*/src crates/*/specs crates/*/proofs -newer "$1" -print -quit)" ]
}

# keep FILE FOLDER: copies what rt built to a folder of target/, in one step, since another test may use it just then
keep() {
  mkdir -p "$2" && cp "$1" "$2/.$$" && mv "$2/.$$" "$2/$(basename "$1")"
}
