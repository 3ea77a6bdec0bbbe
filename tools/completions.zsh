#compdef wireline
# Completions of ./wireline for zsh: source <(./wireline completions zsh)
_wireline() {
  local -a options=('--hint[what to change after a fault]' '--progress[how long the run has taken]' '-o[the file to write]:file:_files' '--help' '*:file:_files')
  local format='--format[the form of the output]:form:(text json csv table coloured)'
  if (( CURRENT == 2 )); then
    compadd init judge run margin explain respond traffic check settings sweep trace page vcd candump records format merge horizon build test completions help
    return
  fi
  case $words[2] in
    init) options=(
      '--hint[what to change after a fault]' '-o[the file to write]:file:_files' '--help' '--nodes[how many nodes]:number:' '--bitrate[the bit rate]:rate:(10k 20k 50k 125k 250k 500k 800k 1M)'
      '--cable[the length of the cable]:length:' '--kind[the kind of controllers]:kind:(sja1000 c_can bxcan mcp2515 at91 xilinx flexcan m_can fdcan tcan4550 mcp2518fd book)'
    ) ;;
    run) options+=('--workers[how many threads]:number:(1 2 3 4 5 6 7 8)' '--link[what they hand records over by]:link:(hub mail)' '--brief[without lines of frames]' '--strict[status 1 unless the verdict is clean]' $format) ;;
    check) options+=($format) ;;
    explain) options+=('--strict[status 1 if anything is doubtful]' $format) ;;
    records) options+=('--from[the first tick of the window]:tick:' '--to[the first tick after it]:tick:') ;;
    trace) options+=('--from[the first tick of the window]:tick:' '--to[the first tick after it]:tick:' '--node[a node, by its number or its name]:node:' '--only[the kind of events]:kind:(lost error flag frame mode sync)' $format) ;;
    candump) options+=('--tick[how long a tick takes]:time:' '--from[the second of tick 0]:seconds:' '--since[the first tick of the window]:tick:' '--to[the first tick after it]:tick:' '--errors[error frames, too]') ;;
    vcd | page) options+=('--tick[how long a tick takes]:time:' '--from[the first tick of the window]:time:' '--to[the first tick after it]:time:') ;;
    merge | horizon) options+=('--wide[records of plans of version 4]') ;;
    margin) options+=('--tick[how long a tick takes]:time:' '--all-send[as if each node had frames]' '--strict[status 1 unless the condition holds]' $format) ;;
    judge) options+=('--tick[how long a tick takes]:time:' '--explain[which command says each part]' $format) ;;
    respond) options+=('--tick[how long a tick takes]:time:' '--any-data[whatever data the frames have]' '--strict[status 1 unless all deadlines are met]' $format) ;;
    traffic) options+=('--tick[how long a tick takes]:time:' '--strict[status 1 unless the run works]' $format) ;;
    settings) options+=(
      '--tick[how long a tick takes]:time:' '--best[the most settings that are listed]:number:' '--plan[the plan of the best one]' '--apply[a plan that gets the best one]:file:_files' '--strict[status 1 if a controller has no setting]'
      '*--kind[the kind of a controller]:kind:' '*--clock[the frequency of its clock]:frequency:' '--bitrate[the bit rate]:rate:'
      '--cable[the length of the cable]:length:' '--per[the time along a metre of cable]:time:' '--out[the time from a node to the cable]:time:'
      '--in[the time from the cable to a node]:time:' '--tolerance[how far clocks may be off]:ppm:' '--senders[one or any]:who:(one any)'
      '--rate-error[how far the bit rate may be off]:ppm:' '--sample-point[the usual sample point]:percent:' '--nodes[how many nodes the bus has]:n:' '--sjw[the greatest jump width]:quanta:' $format
    ) ;;
    sweep) options+=(
      '*--vary[a row for each value]:[NODE.]KEY=A..B[\:STEP]:' '--step[ticks between two offsets]:ticks:' '--runs[the most members of a row that are run]:number:'
      '--seed[which random part]:number:' '--keep-offsets[offsets as the plan has them]' '--keep-ppm[signs as the plan has them]'
      '--worst[frames that test the clocks]' '--workers[how many threads]:number:(1 2 3 4 5 6 7 8)' '--print[one member as a plan]:number:'
      '--page[a map as a page of HTML]' '--part[the K-th of N parts of the members]:K/N:' '--join[what all parts say together]'
      '--spike[a spike more, at a node or a place]:NODE or x=PLACE:' '--length[how long the spike takes]:TIME:' $format
    ) ;;
    completions) compadd bash zsh fish && return ;;
  esac
  shift words
  (( CURRENT-- ))
  _arguments $options
}
compdef _wireline wireline ./wireline
