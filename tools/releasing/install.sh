#!/usr/bin/env bash
# Installs pinball in a folder, or removes it from there: install.sh [--remove] PREFIX
#
# PREFIX is a folder such as ~/.local or /usr/local. The commands go to PREFIX/bin, and all else to PREFIX/share. No
# file that is there already is overwritten, but for those of a release that this script has installed: it is removed
# first. With --remove, all that was installed goes, and the folders that were made for it, if nothing else is in them.
# The script stays in PREFIX/share/pinball, so that the release itself is not needed for that. The status is 0 if it is
# done, else 1.
set -euo pipefail
umask 022
list=share/pinball/INSTALLED
sums=share/pinball/SHA256SUMS

fail() {
  echo "install.sh: $*" >&2
  exit 1
}

# The path of a folder below the prefix, or of the prefix itself, which the list calls `.`.
place() { [ "$1" = . ] && echo "$prefix" || echo "$prefix/$1"; }

# Removes what the list of a prefix names, and the list.
remove() {
  (cd "$prefix" && sed -n 's/^file //p' $list | tr '\n' '\0' | xargs -0 rm -f --)
  sed -n 's/^folder //p' "$prefix/$list" | tac >"$room/folders"
  rm -f "$prefix/$list"
  while IFS= read -r folder; do
    folder=$(place "$folder")
    [ ! -d "$folder" ] || rmdir --ignore-fail-on-non-empty "$folder"
  done <"$room/folders"
  if [ -d "$prefix/share/pinball" ]; then
    echo "left, since it has files that were not installed: $prefix/share/pinball"
  fi
}

# Makes a folder below the prefix, and those above it. Each that was not there is noted.
make_folder() {
  [ ! -d "$prefix/$1" ] || return 0
  [ "$1" = . ] || make_folder "$(dirname "$1")"
  mkdir "$(place "$1")"
  echo "folder $1" >>"$room/list"
}

# Nothing is removed or copied if the release is not whole.
check_release() {
  [ -f "$release/$sums" ] || fail "$release is no release of pinball: unpack it first"
  (cd "$release" && sha256sum --check --quiet --strict $sums) || fail "the release is damaged: get it again"
  { cut -c 67- "$release/$sums" && echo $sums; } >"$room/paths"
}

# Nothing is copied if a file is there that this script has not installed.
check_prefix() {
  [ "$(realpath -m "$prefix/bin")" = "$prefix/bin" ] || fail "$prefix/bin is a link to another folder"
  while IFS= read -r path; do
    if [ -e "$prefix/$path" ] || [ -L "$prefix/$path" ]; then
      fail "$prefix/$path is there already, and this script has not installed it"
    fi
  done <"$room/paths"
}

install() {
  mkdir -p "$(dirname "$prefix")"
  : >"$room/list"
  while IFS= read -r path; do
    make_folder "$(dirname "$path")"
    echo "file $path" >>"$room/list"
  done <"$room/paths"
  # (written before the files, so that --remove finds them even if this ends here)
  cp "$room/list" "$prefix/$list"
  tar -C "$release" --mode=u+rw,go+r-w,a+X -T "$room/paths" -cf - | tar -C "$prefix" --no-same-owner -xpf -
}

# Says what is there now, or why it does not run.
greet() {
  "$prefix/bin/pinball" --version >"$room/version" 2>&1 || true
  grep '^pinball [0-9.]*$' "$room/version" || fail "it does not run here: $(cat "$room/version")"
  echo "It is in $prefix/bin, and its pages are in $prefix/share/pinball."
  case :$PATH: in
  *":$prefix/bin:"*) ;;
  *) echo "Put that folder on your PATH: export PATH=\"$prefix/bin:\$PATH\"" ;;
  esac
  echo "To remove it: \"$prefix/share/pinball/install.sh\" --remove \"$prefix\""
}

main() {
  local is_removed=''
  if [ "${1:-}" = --remove ]; then is_removed=yes && shift; fi
  case $#-${1:-} in
  1--*) sed -n '2,/^[^#]/s/^# \{0,1\}//p' "$0" && exit ;;
  1-?*) ;;
  *) fail "give the folder where it goes, such as ~/.local (--help says more)" ;;
  esac
  prefix=$(realpath -m -- "$1")
  release=$(realpath "$(dirname "$(realpath "$0")")/../..")
  room=$(mktemp -d)
  trap 'rm -r "$room"' EXIT
  if [ "$is_removed" ]; then
    [ -f "$prefix/$list" ] || fail "this script has installed nothing in $prefix"
    remove
    exit
  fi
  check_release
  [ ! -f "$prefix/$list" ] || remove
  check_prefix
  install
  greet
}

# (one line, read before it begins, since the script may remove itself)
main "$@"; exit
