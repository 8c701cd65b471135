# Carries out the words of the command line. Read by ./bukshena and by the installed command, which set $program,
# $python (the folder of the Python package), $help (the page of words) and $docs (the folder of documents), and have
# the functions `ready`, behind which the program is there, and `version`.

say() { printf 'bukshena: %s\n' "$*" >&2; }

stop_at() {
  status=$1
  shift
  say "$*"
  exit "$status"
}

# what a status of the program says
meaning() {
  case $1 in
    1) echo 'a line was refused or invalid: its reply says why' ;;
    2) echo 'these words are none that the program knows; bukshena --help lists them' ;;
    3) echo 'the input could not be read to its end' ;;
    4) echo 'the output could not be written' ;;
    5) echo 'the input has more than 16,777,216 bytes' ;;
    6) echo 'memory was wanting' ;;
    *) echo "the program ended with status $1" ;;
  esac
}

# on a terminal, one line says what a status other than 0 means
carry_out() {
  ready
  [ -t 2 ] || exec "$program" "$@"
  "$program" "$@"
  status=$?
  [ "$status" -eq 0 ] || say "status $status: $(meaning "$status")"
  exit "$status"
}

# carry_out_file FILE WORDS..: with the file in the place of standard input, which - stands for
carry_out_file() {
  file=$1
  shift
  [ "$file" != - ] || carry_out "$@"
  [ ! -d "$file" ] || stop_at 66 "$file is a folder; name a file of it"
  [ -e "$file" ] || stop_at 66 "there is no file $file; look at its name, and at the folder you are in"
  [ -r "$file" ] || stop_at 66 "$file cannot be read; look at its permissions"
  command exec <"$file" || stop_at 66 "$file cannot be opened"
  carry_out "$@"
}

hint() {
  [ ! -t 0 ] || [ ! -t 2 ] || say 'reads commands, one a line; Ctrl-D ends. bukshena prompt has history and help.'
}

# run, check or batch: a word that does not begin with - names a file, and the rest is the program's
read_file() {
  case $#:${2-}:${3-} in
    2:-: | 2:[!-]*) carry_out_file "$2" "$1" ;;
    4:--workers:*) carry_out_file "$4" "$1" "$2" "$3" ;;
    4:-:--workers | 4:[!-]*:--workers) carry_out_file "$2" "$1" "$3" "$4" ;;
    *)
      [ "$1" != run ] || hint
      carry_out "$@"
      ;;
  esac
}

# the words of the Python package; it is called so that no file of the folder one is in stands for a module, and without
# what is installed beside Python, which it needs not and which takes time
hand_to_python() {
  command -v python3 >/dev/null || stop_at 69 "$1 needs python3, which is not on the PATH; run, check, batch and gen need none"
  [ -d "$python/bukshena" ] || stop_at 69 "$1 needs the Python package, which is not in $python"
  ready
  case $program in /*) ;; *) program=$PWD/$program ;; esac
  : "${BUKSHENA_PROGRAM:=$program}"
  export BUKSHENA_PROGRAM
  exec python3 -I -S -c 'import sys
sys.path.insert(0, sys.argv.pop(1))
from bukshena.command import main
sys.exit(main(sys.argv[1:]))' "$python" "$@"
}

# near WORD KNOWN: WORD is the beginning of KNOWN, or they differ in one letter, one has a letter more, or two letters are
# exchanged
near() {
  a=${1#--} b=${2#--}
  [ "${#a}" -gt 1 ] || return
  case $b in "$a"*) return ;; esac
  while [ -n "$a" ] && [ "${a%"${a#?}"}" = "${b%"${b#?}"}" ]; do a=${a#?} b=${b#?}; done
  while [ -n "$a" ] && [ "${a#"${a%?}"}" = "${b#"${b%?}"}" ]; do a=${a%?} b=${b%?}; done
  case ${#a}:${#b} in
    [01]:[01]) ;;
    2:2) [ "$a" = "${b#?}${b%?}" ] ;;
    *) return 1 ;;
  esac
}

# a first word that is none goes to the program as it is, which ends with status 2; what may have been meant is said
suggest() {
  if [ -f "$1" ]; then
    say "$1 is a file; to carry it out: bukshena run $1"
  else
    meant=
    for known in run check batch gen picture judge ledger prompt watch draw --help --version; do
      [ -n "$meant" ] || ! near "$1" "$known" || meant=$known
    done
    [ -z "$meant" ] || say "there is no word $1; did you mean $meant?"
  fi
}

case ${1-} in
  run | check | batch) read_file "$@" ;;
  gen) carry_out "$@" ;;
  picture | judge | ledger | prompt | watch | draw) hand_to_python "$@" ;;
esac
case $#:${1-} in
  1:--help | 1:-h)
    cat -- "$help"
    echo "The documents stand in $docs."
    exit
    ;;
  1:--version)
    version
    exit
    ;;
esac
[ -z "${1-}" ] || suggest "$1"
carry_out "$@"
