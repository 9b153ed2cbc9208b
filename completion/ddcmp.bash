# completion/generate made this file from the texts of `ddcmp COMMAND --help`.
_ddcmp() {
  local word=${COMP_WORDS[COMP_CWORD]} before=${COMP_WORDS[COMP_CWORD - 1]} words='' files=''
  local command=${COMP_WORDS[1]}
  [ "$COMP_CWORD" -gt 1 ] || command=
  # A colon is a word of its own for bash.
  if [ "$word" = : ]; then
    word='' command=$before before=:
  elif [ "$before" = : ]; then
    command=${COMP_WORDS[COMP_CWORD - 2]}
  fi
  case $command:$before in
    device::) files=yes ;;
    *::) ;;
    :*) words='explain simulate pair station tap link bridge help -h --help -V --version' ;;
    help:help) words='explain simulate pair station tap link bridge' ;;
    explain:--max) ;;
    explain:--from) words='hexdump xxd od text auto' ;;
    explain:*) words='--raw --from --json --discarded --ladder --max -h --help' files=yes ;;
    simulate:--window | simulate:--inbox | simulate:--max | simulate:--syn) ;;
    simulate:*) words='--begun --acknowledge-on-take --window --inbox --max --syn --restart --svg --ladder --counters -h --help' files=yes ;;
    pair:--window | pair:--inbox | pair:--max | pair:--syn) ;;
    pair:*) words='--begun --acknowledge-on-take --window --inbox --max --syn --restart --svg --ladder --counters -h --help' files=yes ;;
    station:--addr | station:--turns | station:--timer-ms | station:--send) ;;
    station:--role) words='connect listen' ;;
    station:*) words='--role --addr --turns --timer-ms --send --restart --counters -h --help' ;;
    tap:--listen | tap:--connect | tap:--report | tap:--max) ;;
    tap:*) words='--listen --connect --again --json --ladder --time --clock --report --max -h --help' ;;
    link:--only | link:--window | link:--inbox | link:--max | link:--syn | link:--timer-ms | link:--attempts | link:--linger-ms | link:--baud | link:--seconds | link:--report) ;;
    link:--line) words='connect: listen: udp: device:' ;;
    link:*) words='--line --only --window --inbox --max --syn --restart --timer-ms --attempts --linger-ms --baud --seconds --report --binary --events --acknowledge-early --maintenance --stay --again --counters --trace --ladder --clock --json -h --help' ;;
    bridge:--seconds | bridge:--lose | bridge:--damage | bridge:--delay | bridge:--baud | bridge:--seed | bridge:--report | bridge:--save-first | bridge:--save-second) ;;
    bridge:*) words='--seconds --again --lose --damage --delay --baud --seed --trace --ladder --json --report --clock --save-first --save-second --append -h --help' ;;
  esac
  mapfile -t COMPREPLY < <(compgen -W "$words" -- "$word")
  if [ -n "$files" ] && [[ $word != -* ]]; then
    mapfile -t -O ${#COMPREPLY[@]} COMPREPLY < <(compgen -f -- "$word")
    compopt -o filenames 2> /dev/null
  fi
  [[ ${COMPREPLY[*]} != *: ]] || compopt -o nospace 2> /dev/null
  return 0
}
complete -F _ddcmp ddcmp
