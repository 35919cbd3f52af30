# bash completion for floatstore: '. tools/floatstore.bash', or install it as floatstore in bash-completion's directory.
_floatstore() {
  local word=${COMP_WORDS[COMP_CWORD]} command=${COMP_WORDS[1]} before=${COMP_WORDS[COMP_CWORD - 1]} options
  COMPREPLY=()
  if [ "$COMP_CWORD" = 1 ]; then
    COMPREPLY=($(compgen -W 'format put get delete count list export import check map history dump diff salvage help --version' -- "$word"))
    return
  fi
  case $before in
    --noise) COMPREPLY=($(compgen -W 'ones zeros' -- "$word")); return ;;
    --cut | --offset | --blocks) return ;;
  esac
  case $command in
    format) options='--force' ;;
    put | delete) options='--cut --noise' ;;
    get) options='--raw' ;;
    export | import | salvage) options='--json --csv' ;;
    map) options='--svg' ;;
  esac
  case $word in
    -*) COMPREPLY=($(compgen -W "$options --offset --blocks" -- "$word")) ;;
    @*) COMPREPLY=($(compgen -P @ -f -- "${word#@}")) ;;
    *) COMPREPLY=($(compgen -f -- "$word")) ;;
  esac
}
complete -o filenames -F _floatstore floatstore tools/floatstore
