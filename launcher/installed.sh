#!/bin/sh
# bukshena WORDS..: runs the installed program; bukshena(1) has its words.
set -u
here=$0
[ -h "$here" ] && here=$(readlink -f -- "$here")
case $here in
  */bin/*) prefix=${here%/bin/*} ;;
  */*) prefix=${here%/*}/.. ;;
  *) prefix=.. ;;
esac
program=$prefix/libexec/bukshena/bukshena
python=$prefix/share/bukshena/python
help=$prefix/share/bukshena/help.txt
docs=$prefix/share/doc/bukshena/docs
ready() { :; }
version() { cat -- "$prefix/share/bukshena/version.txt"; }
. "$prefix/share/bukshena/run.sh"
