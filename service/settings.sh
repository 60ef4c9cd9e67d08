# Reads the settings. All that are missing or wrong are named before anything is done, and the status is 2.
settings=$(readlink -m "${LANES_SERVICE:-/etc/lanes-service.conf}")
wrong=0
wrong() { printf 'lanes-service: %s: %s\n' "$settings" "$*" >&2; wrong=1; }

paths="FOLDER INBOX DONE REFUSED STATE BACKUP"
counts="ORIGIN KEEP_BACKUPS KEEP_DONE KEEP_DAYS MOST_DELETED LIMIT MISS_LOAD MISS_PULL MISS_NIGHT MOST_PARTS"
unset $paths $counts TABLE SSH PEERS RETIRED DAY DAY_FORMAT
[ -f "$settings" ] && [ -r "$settings" ] || { wrong "it is no file that can be read"; exit 2; }
sh -n "$settings" || { wrong "sh can't read it"; exit 2; }
. "$settings"

# Whether a number is a natural one from LEAST to MOST: is_between NUMBER LEAST MOST
is_between() {
    case $1 in '' | *[!0-9]* | 0?* | ???????????*) return 1 ;; esac
    [ "$1" -ge "$2" ] && [ "$1" -le "$3" ]
}
is_origin() { is_between "$1" 1 4294967295; }

for name in $paths $counts TABLE SSH DAY_FORMAT; do
    eval "[ -n \"\${$name:-}\" ]" || wrong "$name is missing"
done
for name in PEERS RETIRED; do
    eval "[ -n \"\${$name+set}\" ]" || wrong "$name is missing; it may be empty: $name=\"\""
done
[ $wrong = 0 ] || exit 2

for name in $paths; do
    eval "path=\$$name"
    case $path in
        / | [!/]* | */ | *'
'*) wrong "$name=$path is no path that begins with / and has a name at its end" ;;
    esac
done
twice=$(printf '%s\n' "$FOLDER" "$INBOX" "$DONE" "$REFUSED" "$STATE" "$BACKUP" | sort | uniq -d | head -n 1)
[ -z "$twice" ] || wrong "two of $paths are $twice"
for name in $counts; do
    eval "value=\$$name"
    least=0 most=4294967295
    case $name in
        ORIGIN | KEEP_BACKUPS | LIMIT | MOST_PARTS) least=1 ;;
        MOST_DELETED) most=100 ;;
    esac
    is_between "$value" $least $most || wrong "$name=$value is no number from $least to $most"
done

# The table's words: its name, and a name and a type for each column.
columns=$(printf '%s\n' $TABLE | sed 1d | sed -n 'p;n')
[ $(($(printf '%s\n' $TABLE | wc -l) % 2)) = 1 ] && [ -n "$columns" ] || wrong "TABLE=$TABLE is no name with a name and a type for each column"
if [ "$KEEP_DAYS" != 0 ]; then
    printf '%s\n' "$columns" | grep -qixF -e "${DAY:-}" || wrong "DAY=${DAY:-} is no column of TABLE"
    case $(date +"$DAY_FORMAT") in '' | *[!0-9]*) wrong "DAY_FORMAT=$DAY_FORMAT does not make a number of a day" ;; esac
fi

# The peers, a line each, and the origins, each of one site.
origins=$ORIGIN
for origin in $RETIRED; do
    is_origin "$origin" || wrong "RETIRED has $origin, which is no origin"
    origins="$origins $origin"
done
while read -r name origin host; do
    case $name in
        '') continue ;;
        *[!A-Za-z0-9-]* | -*) wrong "PEERS has $name, which is no name of letters, digits and hyphens" ;;
    esac
    is_origin "$origin" && [ -n "$host" ] || wrong "PEERS has no line \"NAME ORIGIN HOST\" for $name"
    origins="$origins $origin"
done << END
$PEERS
END
twice=$(printf '%s\n' $origins | sort | uniq -d | head -n 1)
[ -z "$twice" ] || wrong "two sites of ORIGIN, PEERS and RETIRED have origin $twice"
twice=$(printf '%s\n' "$PEERS" | awk 'NF { print $1 }' | sort | uniq -d | head -n 1)
[ -z "$twice" ] || wrong "two peers are $twice"
[ $wrong = 0 ] || exit 2
