# Shell functions that mbdc-house, office-inbox and office-line share: the settings of a house, the lock of its image, and what the
# office may send.
# Sourced with `program` set to the name that messages begin with.
# shellcheck shell=sh disable=SC2034,SC2154

LC_ALL=C
export LC_ALL
umask 0027

# A unit that waits longer than this for another one's end fails, and its next start tries again.
LOCK_SECONDS=3000
# The exit status of flock after that time: EX_TEMPFAIL of sysexits.h, which mbdc never returns.
LOCKED=75
USAGE=2
CONFIGURATION=78
# The longest file or script of the office, in bytes: mbdc takes no longer one.
LARGEST=1048576

say() {
    printf '%s: %s\n' "$program" "$1" >&2
}

# Ends the program: fail STATUS TEXT
fail() {
    say "$2"
    exit "$1"
}

# The only word is the house's name, which stands in paths and in names of units.
check_words() {
    [ $# = 1 ] || fail "$USAGE" 'usage: HOUSE'
    case $1 in
    '' | -* | *[!A-Za-z0-9_-]*) fail "$USAGE" 'the name of a house has letters, digits, _ and -' ;;
    esac
}

# Whether it is a number within: is_within LEAST MOST NUMBER
is_within() {
    case $3 in
    '' | 0* | *[!0-9]* | ??????*) return 1 ;;
    esac
    [ "$3" -ge "$1" ] && [ "$3" -le "$2" ]
}

is_path() {
    case $1 in
    /*) ;;
    *) return 1 ;;
    esac
}

# A speed in baud, after which may stand whether bytes have a parity bit: 2400, 2400,8N1
is_speed() {
    case ${1%,8[EN]1} in
    300 | 600 | 1200 | 2400 | 4800 | 9600 | 19200 | 38400) ;;
    *) return 1 ;;
    esac
}

# A link as mbdc takes it, with a whole path, since units run in a folder of their own.
is_link() {
    case $1 in
    serial:/?*) ;;
    tcp://?*:* | blocks://?*:*) is_within 1 65535 "${1##*:}" ;;
    *) return 1 ;;
    esac
}

# One setting: set_value NAME VALUE. Status 1 where it is none: `takes` says what that name takes.
set_value() {
    case $1 in
    IMAGE | BACKUP) is=is_path takes='a path from / on, without blanks' ;;
    BAUD | BAUD_[1-8]) is=is_speed takes='300, 600, 1200, 2400, 4800, 9600, 19200 or 38400, and ,8N1 after it for no parity' ;;
    TRIES) is='is_within 1 9' takes='a number from 1 to 9' ;;
    PATIENCE) is='is_within 1 60000' takes='a number from 1 to 60000' ;;
    LINE_[1-8]) is=is_link takes='tcp://HOST:PORT, serial:/PATH or blocks://HOST:PORT' ;;
    *) is=false takes='' ;;
    esac
    case $2 in
    *[!]A-Za-z0-9._:/@%+,[-]*) return 1 ;;
    esac
    $is "$2" || return 1
    case $1 in
    IMAGE) image=$2 ;;
    BACKUP) backups=$2 ;;
    BAUD) baud=$2 ;;
    BAUD_*) bauds="$bauds ${1#BAUD_}=$2" ;;
    TRIES) tries=$2 ;;
    PATIENCE) patience=$2 ;;
    LINE_*) add_line "${1#LINE_}" "$2" ;;
    esac
}

# A bus line has one link, and two lines can't share theirs: both would ask on one bus at once.
add_line() {
    takes='a link that no other line of this file has'
    case "$lines " in
    *" $1="* | *"=$2 "*) return 1 ;;
    esac
    lines="$lines $1=$2"
}

# Prints the speed of a bus line's port, that of all of them where it has none of its own, and its parity: speed_of N
speed_of() {
    speed=$baud
    for own in $bauds; do
        [ "${own%%=*}" != "$1" ] || speed=${own#*=}
    done
    echo "$speed" | tr , ' '
}

# Reads /etc/mbdc/HOUSE.conf into image, backups, lines (words N=LINK), baud, bauds (words N=BAUD), tries and patience. Each line
# that is no setting is named. (MBDC_SETTINGS names another folder, for tries without the package; neither sudo nor a unit passes it on.)
read_settings() {
    settings=${MBDC_SETTINGS:-/etc/mbdc}/$1.conf
    image=/var/lib/mbdc/$1.image backups='' lines='' baud=2400 bauds='' tries=2 patience=''
    [ -r "$settings" ] || fail "$CONFIGURATION" "$settings: it can't be read"
    number=0 wrong=
    while IFS= read -r line || [ -n "$line" ]; do
        number=$((number + 1))
        case $line in
        '' | '#'*) continue ;;
        esac
        set_value "${line%%=*}" "${line#*=}" && continue
        wrong=yes
        if [ -n "$takes" ]; then
            say "$settings:$number: ${line%%=*} takes $takes, not ${line#*=}"
        else
            say "$settings:$number: no setting: $line"
        fi
    done <"$settings"
    [ -z "$wrong" ] || exit "$CONFIGURATION"
    backups=${backups:-$image.backup}
}

# Prints the lines of a file as lines of a script. Only office lines get through: any other one becomes an office line
# that is answered ERR SYNTAX.
as_script() {
    sed -e 's/\r$//' -e '/^$/d' -e 's/^OFFICE //' -e 's/^/OFFICE /' "$1"
}

# Waits until no other unit works on the image, and keeps it to this program until that ends. A mbdc that a person
# started has the image itself locked, so its end is waited for too.
lock_image() {
    (: >>"$image.lock") 2>/dev/null || fail "$CONFIGURATION" "$image.lock: it can't be written"
    exec 9>>"$image.lock"
    flock --nonblock 9 || say "$image: another program of the package has it; waiting"
    flock --timeout "$LOCK_SECONDS" 9 || fail "$LOCKED" "$image: in use for $LOCK_SECONDS s"
    [ ! -f "$image" ] || flock --timeout "$LOCK_SECONDS" --shared "$image" true \
        || fail "$LOCKED" "$image: in use for $LOCK_SECONDS s"
}
