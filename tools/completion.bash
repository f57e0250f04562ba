# Completion of mage_plan's words in bash: source this file.

# The options of a command.
_mage_plan_options() {
  local limits='--page --frames --buffer --ahead'
  case $1 in
    solo) echo "--source --driver --garbler --evaluator --seed --stream --labels $limits" ;;
    stats) echo "--source $limits" ;;
    deal) echo '--source --evaluator --seed --labels' ;;
    plan) echo "--source --out $limits" ;;
    check) echo '--source --program' ;;
    upgrade) echo '--program --out' ;;
    gen) echo "--items --rows --workers --number --out $limits" ;;
  esac
}

# Behind the command the words stand in pairs: an option, and then its value. An option that stands already isn't offered again.
_mage_plan() {
  local word=${COMP_WORDS[COMP_CWORD]} before=${COMP_WORDS[COMP_CWORD - 1]} option offered=''
  COMPREPLY=()
  if [ "$COMP_CWORD" -eq 1 ]; then
    mapfile -t COMPREPLY < <(compgen -W 'solo stats deal plan check upgrade gen' -- "$word")
  elif ((COMP_CWORD % 2 == 0)); then
    for option in $(_mage_plan_options "${COMP_WORDS[1]}"); do
      [[ " ${COMP_WORDS[*]:2:COMP_CWORD-2} " == *" $option "* ]] || offered+=" $option"
    done
    mapfile -t COMPREPLY < <(compgen -W "$offered" -- "$word")
  else
    case $before in
      --driver) mapfile -t COMPREPLY < <(compgen -W 'plain garble eval' -- "$word") ;;
      --source | --garbler | --evaluator | --seed | --stream | --labels | --program | --out)
        mapfile -t COMPREPLY < <(compgen -f -- "$word")
        ;;
    esac
  fi
}

complete -o filenames -F _mage_plan mage_plan
