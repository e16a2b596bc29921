# Completion of portal and its tools for bash.

# Takes those of the words after the first that begin with it. `compgen -W` would run what stands in them.
_portal_of() {
  local word
  for word in "${@:2}"; do
    [[ $word != "$1"* ]] || COMPREPLY+=("$word")
  done
}

_portal() {
  local word=${COMP_WORDS[COMP_CWORD]} before=${COMP_WORDS[COMP_CWORD - 1]} command=
  [ "$COMP_CWORD" -gt 1 ] && command=${COMP_WORDS[1]}
  COMPREPLY=()
  case $before in
    --port | --connections) return ;;
  esac
  case $command in
    '') _portal_of "$word" check solve init serve pipe report upgrade help --help --version ;;
    help) _portal_of "$word" check solve init serve pipe report upgrade ;;
    serve)
      if [[ $word == -* ]]; then
        _portal_of "$word" --port --connections --help
      else
        mapfile -t COMPREPLY < <(compgen -f -- "$word")
      fi
      ;;
    *)
      if [[ $word == -* ]]; then
        _portal_of "$word" --help
      else
        mapfile -t COMPREPLY < <(compgen -f -- "$word")
      fi
      ;;
  esac
}
complete -o filenames -F _portal portal

# The departments of this machine: the names of their settings.
_portal_departments() {
  local file
  for file in "${PORTAL_ETC:-/etc/portal}"/*.conf; do
    file=${file##*/}
    [[ ! ${file%.conf} =~ ^[a-z0-9][a-z0-9-]*$ ]] || echo "${file%.conf}"
  done
}

# The words that a tool may have at a place; nothing where a file stands there.
_portal_words() {
  case $1.$2 in
    portal-letters.1 | portal-describe.2 | portal-restore.2 | portal-person.4 | portal-instance.3) ;;
    portal-letters.*) echo --page --department --language --until ;;
    portal-new.*) echo --help ;;
    portal-correct.2) echo lecturer project student office ;;
    portal-person.2) echo student lecturer ;;
    portal-instance.2) echo 1 2 ;;
    portal-correct.4) echo name title capacity code ;;
    portal-correct.5) echo --new ;;
    portal-schedule.2) echo ranking published --cancel ;;
    *.1) echo --help; _portal_departments ;;
  esac
}
_portal_tools() {
  local word=${COMP_WORDS[COMP_CWORD]} words=
  COMPREPLY=()
  words=$(_portal_words "${COMP_WORDS[0]##*/}" "$COMP_CWORD")
  if [ -n "$words" ]; then
    read -ra words -d '' <<<"$words"
    _portal_of "$word" "${words[@]}"
  else
    mapfile -t COMPREPLY < <(compgen -f -- "$word")
  fi
}
complete -o filenames -F _portal_tools portal-new portal-backup portal-restore portal-describe portal-correct portal-person portal-instance portal-letters portal-health portal-schedule portal-end
