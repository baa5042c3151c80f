# Counts whether the command after a name is right; a script takes this in.
right() {
  if "${@:2}"; then
    echo "1 passed, 0 failed"
  else
    echo "${0##*/}: $1 goes wrong"
    echo "0 passed, 1 failed"
  fi
}
