declare -A map
f() { local a=$1 b="${1//x/y}"; local -a arr=(1 2 3 "$a"); map[$a]=$b; [[ $a =~ ^([a-z]+)([0-9]+)$ ]] && r=${BASH_REMATCH[1]}; case $a in k1*) : ;; *) c="$(( ${#a} + 1 ))" ;; esac; for w in $a $b "${arr[@]}"; do v="$w.$c"; done; unset arr; eval "g_$((i%50))() { echo \$1 > /dev/null; if true; then x=\$((1+2)); fi; }"; alias al$((i%20))="ls -$i"; trap ":" USR1; printf -v q '%s-%d' "$a" "$i"; s=${q%%-*}; t=${q^^}; read -r aa bb <<< "$q $s"; g_$((i%50)) "$q"; }
for ((i=0;i<1500;i++)); do f "key$i"; [ $((i%3)) = 0 ] && unset "map[key$i]"; done
hist=1; set -o history; for ((i=0;i<50;i++)); do history -s "cmd $i"; done
echo done; read line
