# Stands for a program that takes blocks, below $folder: each command goes into the file log, a `resolve` is answered by
# the line behind it in the file answers, and by the file due the next `refresh` behind the package's own files. A unit
# that declares `Refused` isn't taken.
none='{"ok":[]}'
nothing='{"ok":{"macros":null,"stop":null,"types":null,"values":null}}'
while read -r line; do
  printf '%s\n' "$line" >> "$folder/log"
  case $line in
    '{"do":"refresh"}')
      reply=
      if [ -e "$folder/due" ] && grep -q "\"set file\",\"file\":\"${folder#/}/" "$folder/log"; then
        reply=$(cat "$folder/due")
        rm "$folder/due"
      fi
      printf '%s\n' "${reply:-$none}"
      ;;
    '{"do":"diagnostics"'*) printf '%s\n' "$none" ;;
    '{"do":"set block"'*'"name":"Refused"'*) echo '{"error":"too large","what":"nodes"}' ;;
    '{"do":"resolve"'*)
      reply=$(grep -F -x -A 1 -- "$line" "$folder/answers" 2> /dev/null | tail -n 1)
      printf '%s\n' "${reply:-$nothing}"
      ;;
    *) echo '{"ok":null}' ;;
  esac
done
