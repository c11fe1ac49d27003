cd ${2:-/tmp/prog}; rm -rf target/inc/$1; /usr/bin/time -f "$1 %U user %S sys %e real" rt dev $1 >/tmp/o.$1 2>/tmp/t.$1; tail -1 /tmp/t.$1
find target/inc/$1 -type f -printf '%T@ %p\n' | sort -n | awk 'NR>1 {printf "%.2f %s\n", $1-prev, $2} {prev=$1}' | sort -rn | head -12 | sed 's|target/inc/[a-z]*/.*/||'
