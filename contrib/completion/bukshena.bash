# Completion of bukshena's words for bash. `make install` puts it in its place; without that, source this file, or copy it
# as `bukshena` into ~/.local/share/bash-completion/completions/.

# the files and folders that begin with the word: no space is put behind a folder
_bukshena_files() {
  compopt -o filenames 2>/dev/null
  mapfile -t -O "${#COMPREPLY[@]}" COMPREPLY < <(compgen -f -- "$1")
}

_bukshena_words() {
  mapfile -t -O "${#COMPREPLY[@]}" COMPREPLY < <(compgen -W "$1" -- "$2")
}

_bukshena() {
  local word=${COMP_WORDS[COMP_CWORD]} before=${COMP_WORDS[COMP_CWORD - 1]} options
  COMPREPLY=()
  if [ "$COMP_CWORD" -eq 1 ]; then
    _bukshena_words 'draw prompt picture judge ledger watch run check batch gen --help --version' "$word"
    return
  fi
  case $before in
    --workers) _bukshena_words '1 2 4 8 16' "$word" && return ;;
    -o) _bukshena_files "$word" && return ;;
  esac
  case ${COMP_WORDS[1]} in
    run | check | batch) options=--workers ;;
    gen) [ "$COMP_CWORD" -ne 3 ] || _bukshena_words --workers "$word" && return ;;
    picture) options='-o --width --whole --hide --window --mark --fill --line-names --counterexample --help' ;;
    judge) options='--allow-unsettled --allow-false --json --seconds --workers --help' ;;
    ledger) options='--all --seconds --workers --help' ;;
    draw) options='--no-browser --help' ;;
    prompt) options='--seconds --help' ;;
    watch) options='-o --help' ;;
    *) return ;;
  esac
  case $word in -*) _bukshena_words "$options" "$word" ;; *) _bukshena_files "$word" ;; esac
}
complete -F _bukshena bukshena
