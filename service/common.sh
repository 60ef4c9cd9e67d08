# What the commands share, read after the settings. Nothing here writes to /tmp.
TMPDIR=$STATE
export TMPDIR
# What is another text each time that the machine is started.
BOOT=${LANES_SERVICE_BOOT:-/proc/sys/kernel/random/boot_id}

say() { printf '%s: %s\n' "$command" "$*" >&2; }
die() { say "$@"; exit 1; }
usage() { echo "usage: lanes-service $command $1" >&2; exit 2; }

# Ends the command unless these folders of the settings are there: needs NAME.. . What root makes here, the service could not change.
needs() {
    for name in "$@"; do
        eval "path=\$$name"
        [ -d "$path" ] && [ -w "$path" ] || { wrong "$name=$path is no folder that can be written"; exit 2; }
    done
    [ "$command" = watch ] || [ -O "$STATE" ] || die "type this as the user of the service: sudo -u $(stat -c %U "$STATE") lanes-service $command"
}

# Adds a line to a note in STATE, which the watch prints until the note is gone. On a full disk STATE/spare makes room for it.
note() {
    say "$2"
    line="$(date '+%F %T'): $2"
    printf '%s\n' "$line" 2> /dev/null >> "$STATE/$1" && return 0
    rm -f "$STATE/spare"
    printf '%s\n' "$line" >> "$STATE/$1"
}
fault() { note "fault.$1" "$2"; }
# A hold also keeps loads and deletions back until somebody releases it.
hold() { note hold "$1"; }
mark() { touch "$STATE/$1" || say "$STATE/$1 can't be written"; }

# Whether loads and deletions have to wait: for somebody, or for a pull from a peer that may have loads of this site.
is_held() { [ -e "$STATE/hold" ] || [ -n "$(waits_for)" ]; }
waits_for() { for peer in $(peers); do [ ! -e "$STATE/wait-for.$peer" ] || echo "$peer"; done; }
wait_for_peers() {
    for peer in $(peers); do touch "$STATE/wait-for.$peer" || exit 1; done
    cat "$BOOT" 2> /dev/null > "$STATE/boot"
}
pull_from() { for peer in "$@"; do ("$0" pull "$peer") || say "there was no pull from $peer"; done; }

# Commands that replace the folder run alone. All others share.
share() { needs STATE; exec 9>> "$STATE/lock"; flock -s -w 30 9 || { say "a command that replaces the folder still runs"; exit 75; }; }
alone() { needs STATE; exec 9>> "$STATE/lock"; flock -w 60 9 || { say "another command of the service still runs: lslocks names it"; exit 75; }; }
# One of a kind runs at a time.
only() { exec 8>> "$STATE/only.$1"; flock -w 5 8 || { say "another one still runs"; exit 75; }; }

# Runs a command for at most LIMIT seconds. The status is 0 if it went well, 75 if it may go well later, 65 if the load is at fault,
# 74 if a loss of power may undo what it did, and otherwise its own. What it says goes to standard error, and stays in `said`.
try() {
    { said=$(timeout -k 10 "$LIMIT" "$@" 2>&1 >&3 3>&-); status=$?; } 3>&1
    [ -z "$said" ] || printf '%s\n' "$said" >&2
    case $said in
        *"could not be synced"*) hold "$1 $2: could not be synced. Look at the disk, then: lanes-service rewrite"; return 74 ;;
    esac
    [ $status != 0 ] || return 0
    printf '%s\n' "$*" >&2
    case $status in 124 | 255) return 75 ;; esac # out of time; ssh did not reach the other site
    [ $status -lt 128 ] || return 75 # killed
    names=$(printf '%s\n' "$said" | sed -n 's/^refused \([A-Za-z]*\).*/\1/p')
    [ -n "$names" ] || return $status
    printf '%s\n' "$names" | grep -qvxE "Busy|Memory|WriteFault|Truncated" || return 75
    printf '%s\n' "$names" | grep -qvxE "Busy|Memory|WriteFault|BadCsv|LineTooLong|BadName|NumbersSpent|Conflict" || return 65
    return $status
}

# The names of the peers; the origin and the host of one; all origins that are known.
peers() { printf '%s\n' "$PEERS" | awk 'NF { print $1 }'; }
origin_of() { printf '%s\n' "$PEERS" | awk -v name="$1" '$1 == name { print $2 }'; }
host_of() { printf '%s\n' "$PEERS" | awk -v name="$1" '$1 == name { $1 = $2 = ""; print }'; }
known_origins() { echo $ORIGIN $RETIRED $(printf '%s\n' "$PEERS" | awk 'NF { print $2 }'); }
is_peer() { [ -n "$(host_of "$1")" ] || { wrong "PEERS has no $1"; exit 2; }; }

# Runs a command at a peer: ask PEER COMMAND.. It has no lock, since ssh may leave a process behind.
ask() { host=$(host_of "$1"); shift; try $SSH $host "$@" 8>&- 9>&-; }

# How many live rows a file or the folder has, of those for which a condition is true.
count() { timeout -k 10 "$LIMIT" lanes query --format csv "$1" "SELECT COUNT(*) FROM ${TABLE%% *}${2:+ WHERE $2}" | tail -n 1; }
digest() { lanes check --digest "$1" | sed -n 's/.* digest=//p'; }
# A number of what `lanes inspect --format json` prints.
value() { sed -n "s/.*\"$1\":\([0-9]*\),.*/\1/p"; }
# The names of the batches of a file or the folder.
batches() { lanes inspect --batches "$1" | sed 1d | cut -d , -f 1; }

# The backups of today and before, the oldest first: BACKUP/TABLE-DAY-TIME.lanes. A clock that was ahead may have left others.
backups() {
    today=$(date +%Y%m%d)
    for file in "$BACKUP/${TABLE%% *}"-*.lanes; do
        case $(day_of "$file") in *[!0-9]* | '') continue ;; esac
        [ "$(day_of "$file")" -gt "$today" ] || echo "$file"
    done
}
day_of() { expr "$1" : ".*-\([0-9]\{8\}\)-[0-9]\{6\}\.lanes\$" || :; }
is_whole() { (cd "$BACKUP" && sha256sum --quiet --check "${1##*/}.sum") > /dev/null 2>&1 && lanes check "$1" > /dev/null 2>&1; }
last_backup() { backups | sort -r | while read -r file; do ! is_whole "$file" || { echo "$file"; break; }; done; }

# Puts FOLDER.new in the folder's place, and keeps what was there.
swap() {
    kept=$FOLDER.old-$(date +%Y%m%d-%H%M%S)
    while [ -e "$kept" ]; do kept=$kept+; done
    [ ! -e "$FOLDER" ] || mv -T "$FOLDER" "$kept" || exit 1
    mv -T "$FOLDER.new" "$FOLDER" && sync "$(dirname "$FOLDER")" || exit 1
    say "what was there is kept as $kept, for you to remove"
}
