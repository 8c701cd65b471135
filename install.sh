#!/bin/sh
# sh install.sh [PREFIX]               puts bukshena below PREFIX, /usr/local where none is given
# sh install.sh --uninstall [PREFIX]   takes it away
# Of a release this is all; in a checkout `make install` calls it, when the program is built. Where DESTDIR is set, all
# is put below it, as packages are made. What is installed needs nothing of this folder.
set -eu

here=$(dirname -- "$0")
cd -- "$here"
umask 022

stop_at() {
  status=$1
  shift
  echo "bukshena: $*" >&2
  exit "$status"
}

uninstall=
case ${1-} in
  --uninstall)
    uninstall=yes
    shift
    ;;
  -*) stop_at 64 'sh install.sh [PREFIX], or sh install.sh --uninstall [PREFIX]' ;;
esac
prefix=${1:-/usr/local}
at=${DESTDIR-}$prefix
share=$at/share

# put MODE FILE PLACE: copies the file to the place
put() {
  folder=$(dirname -- "$3")
  mkdir -p -- "$folder" || stop_at 73 "$folder cannot be written; name another folder: sh install.sh PREFIX"
  rm -f -- "$3"
  cp -- "$2" "$3"
  chmod "$1" "$3"
}

# put_folder FOLDER PLACE: copies the files of the folder and of those in it
put_folder() {
  (cd -- "$1" && find . -name __pycache__ -prune -o -type f -print) | LC_ALL=C sort | while read -r file; do
    put 644 "$1/$file" "$2/${file#./}"
  done
}

single="bin/bukshena share/man/man1/bukshena.1 share/man/man5/bukshena-language.5 share/zsh/site-functions/_bukshena
  share/bash-completion/completions/bukshena share/vim/vimfiles/syntax/bukshena.vim share/vim/vimfiles/ftdetect/bukshena.vim
  share/nvim/site/syntax/bukshena.vim share/nvim/site/ftdetect/bukshena.vim"

if [ -n "$uninstall" ]; then
  for file in $single; do rm -f -- "$at/$file"; done
  rm -rf -- "$at/libexec/bukshena" "$share/bukshena" "$share/doc/bukshena"
  exit
fi

program=libexec/bukshena
[ -f "$program" ] || program=crates/geo_app/out/geo_app
[ -f "$program" ] || stop_at 69 'the program is not built; in a checkout, make install builds it'

put 755 launcher/installed.sh "$at/bin/bukshena"
put 755 "$program" "$at/libexec/bukshena/bukshena"
for file in run.sh help.txt; do put 644 "launcher/$file" "$share/bukshena/$file"; done
if [ -f launcher/version.txt ]; then
  put 644 launcher/version.txt "$share/bukshena/version.txt"
else
  launcher/version.sh >"$share/bukshena/version.txt"
fi
rm -rf -- "$share/bukshena/python"
put_folder contrib/python/bukshena "$share/bukshena/python/bukshena"
put 644 contrib/editors/textmate/bukshena.tmLanguage.json "$share/bukshena/editors/bukshena.tmLanguage.json"
for page in ANSWERS LANGUAGE; do put 644 "docs/$page.md" "$share/bukshena/docs/$page.md"; done
put 644 contrib/man/bukshena.1 "$share/man/man1/bukshena.1"
put 644 contrib/man/bukshena-language.5 "$share/man/man5/bukshena-language.5"
put 644 contrib/completion/bukshena.bash "$share/bash-completion/completions/bukshena"
put 644 contrib/completion/_bukshena "$share/zsh/site-functions/_bukshena"
for place in vim/vimfiles nvim/site; do put_folder contrib/editors/vim "$share/$place"; done
for file in README.md CHANGELOG.md; do put 644 "$file" "$share/doc/bukshena/$file"; done
put_folder docs "$share/doc/bukshena/docs"
put_folder examples "$share/doc/bukshena/examples"
for folder in checker evaluator opinion; do put_folder "contrib/$folder" "$share/doc/bukshena/contrib/$folder"; done

# what Python would keep at the first start, which a user who may not write there would pay for at each
if [ -z "${DESTDIR-}" ] && command -v python3 >/dev/null; then
  python3 -I -m compileall -q "$share/bukshena/python" || true
fi

[ -z "${DESTDIR-}" ] || exit 0
echo "installed; to begin: $prefix/bin/bukshena draw $share/doc/bukshena/examples/desargues.txt"
case :$PATH: in
  *":$prefix/bin:"*) ;;
  *) echo "$prefix/bin is not on the PATH; with it there, bukshena alone is enough" ;;
esac
