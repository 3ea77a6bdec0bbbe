# Completions of ./wireline for bash: source <(./wireline completions bash)
_wireline() {
  local word=${COMP_WORDS[COMP_CWORD]} before=${COMP_WORDS[COMP_CWORD - 1]} options='--hint --progress -o --help'
  case $before in
    --workers) mapfile -t COMPREPLY < <(compgen -W '1 2 3 4 5 6 7 8' -- "$word") && return ;;
    --link) mapfile -t COMPREPLY < <(compgen -W 'hub mail' -- "$word") && return ;;
    --only) mapfile -t COMPREPLY < <(compgen -W 'lost error flag frame mode sync' -- "$word") && return ;;
    --format) mapfile -t COMPREPLY < <(compgen -W 'text json csv table coloured' -- "$word") && return ;;
    --bitrate) mapfile -t COMPREPLY < <(compgen -W '10k 20k 50k 125k 250k 500k 800k 1M' -- "$word") && return ;;
    --kind) mapfile -t COMPREPLY < <(compgen -W 'sja1000 c_can bxcan mcp2515 at91 xilinx flexcan m_can fdcan tcan4550 mcp2518fd book' -- "$word") && return ;;
    completions) mapfile -t COMPREPLY < <(compgen -W 'bash zsh fish' -- "$word") && return ;;
  esac
  case ${COMP_WORDS[1]} in
    init) options+=' --nodes --bitrate --cable --kind' ;;
    run) options+=' --workers --link --brief --strict --format' ;;
    check) options+=' --format' ;;
    explain) options+=' --strict --format' ;;
    records) options+=' --from --to' ;;
    trace) options+=' --from --to --node --only --format' ;;
    candump) options+=' --tick --from --since --to --errors' ;;
    vcd | page) options+=' --tick --from --to' ;;
    merge | horizon) options+=' --wide' ;;
    margin) options+=' --tick --all-send --strict --format' ;;
    judge) options+=' --tick --explain --format' ;;
    respond) options+=' --tick --any-data --strict --format' ;;
    traffic) options+=' --tick --strict --format' ;;
    settings) options+=' --tick --best --plan --apply --strict --kind --clock --bitrate --cable --per --out --in --tolerance --senders --rate-error --sample-point --nodes --sjw --format' ;;
    sweep) options+=' --vary --step --runs --seed --keep-offsets --keep-ppm --worst --workers --print --page --part --join --spike --length --format' ;;
  esac
  if [ "$COMP_CWORD" = 1 ]; then
    mapfile -t COMPREPLY < <(compgen -W 'init judge run margin explain respond traffic check settings sweep trace page vcd candump records format merge horizon build test completions help' -- "$word")
  elif [[ $word = -* ]]; then mapfile -t COMPREPLY < <(compgen -W "$options" -- "$word")
  else mapfile -t COMPREPLY < <(compgen -f -- "$word"); fi
}
complete -o filenames -F _wireline wireline ./wireline
