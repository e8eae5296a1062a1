#!/usr/bin/env bash
# jobs.sh [COUNT]: a folder of jobs recorded on all processors, by the command line that README.md has for it: 500 jobs, or another multiple of 50, cut out of
# real streams, some clean, some with findings, some refused, some that cannot be read, under names of any bytes. The exit status of each must be what the second
# program says of it, and no record may be another than that of the job recorded alone. A line for each failed check, then the count and the time. Exit status 1
# on a failure.
set -eu
cd "$(dirname "$0")/.."
. tests/checks.sh
count=${1-500} root=$PWD second=$PWD/second/target/release/second
for name in pages plain; do proved_program "$name"; done
(cd second && cargo build --release --offline --quiet)
room=$(mktemp -d)
trap 'chmod -R u+rwx "$room"; rm -rf "$room"' EXIT
line='find jobs -name '\''*.pcl'\'' -print0 | xargs -0 -P "$(nproc)" -I JOB sh -c '\''./rovinuset record "$1" -o "$1.html" >"$1.txt" 2>&1; env printf "%s\t%q\n" "$?" "$1"'\'' - JOB >statuses'
said="README.md"
right "the command line is another" grep -qxF "    \$ $line" README.md
# Out of the project, where ./rovinuset is the command all the same.
cd "$room"
ln -s "$root/rovinuset" rovinuset

# The jobs, and a file with what each must end by: cut streams, whose ends are findings or none; their plain streams, which have no findings; empty ones; such as
# are too long; and a file without permission, a folder and a link to nowhere.
cat >make.py <<'TEXT'
import glob, os, random, subprocess, sys

vectors, second, count = sys.argv[1:]
PAGE = ["2552", "3304"]
LONGEST = 1048576
chosen = random.Random(1)
streams = []
for path in sorted(glob.glob(os.path.join(vectors, "corpus", "*.pcl")) + glob.glob(os.path.join(vectors, "damaged", "*.pcl"))):
    with open(path, "rb") as file:
        streams.append(file.read())


def by_second(mode, job):
    return subprocess.run([second, mode, *PAGE], input=job, stdout=subprocess.PIPE).stdout


def status(job):
    """0 clean, 1 findings, 2 refused, by the second program."""
    last = by_second("trace", job).decode().splitlines()[-1].split("\t")
    return 2 if last[0] == "REFUSED" else 1 if int(last[2]) else 0


def cut():
    stream = chosen.choice(streams)
    return stream[: chosen.randrange(1, min(len(stream), 8000) + 1)]


def jobs():
    """The kind of each job, and its bytes."""
    for number in range(int(count)):
        if number % 50 < 20:
            yield "cut", cut()
        elif number % 50 < 40:
            yield "plain", by_second("plain", cut())
        elif number % 50 < 46:
            yield "whole", chosen.choice([stream for stream in streams if len(stream) < 20000])
        else:
            yield from {46: [("empty", b"")], 47: [("long", bytes(LONGEST + 1 + number))], 48: [("longest", b"A" * LONGEST)]}.get(
                number % 50, [(("shut", "folder", "link")[number // 50 % 3], cut())]
            )


with open("wanted", "wb") as wanted:
    for number, (kind, job) in enumerate(jobs()):
        folder = f"jobs/machine {number % 7}/{kind}"
        os.makedirs(folder, exist_ok=True)
        odd = ("\n1\t", "\udcff", "")[number % 3] if kind == "plain" else ""
        name = f"{folder}/-a {kind} job, {odd}'{number}' $x.pcl"
        ended = status(job)
        if kind == "folder":
            os.mkdir(name)
        elif kind == "link":
            os.symlink("nowhere", name)
        else:
            with open(name, "wb") as file:
                file.write(job)
        if kind == "shut":
            os.chmod(name, 0)
        ended = 2 if kind in ("folder", "link", "shut") else ended
        wanted.write(b"%d\0%s\0" % (ended, os.fsencode(name)))
TEXT
python3 make.py "$root/tests/vectors" "$second" "$count"
mapfile -d '' -t wanted <wanted # a status, a name, a status, ..
env printf '%s\t%q\n' "${wanted[@]}" | sort >wanted
said="the jobs"
right "not $count" [ "$(find jobs -name '*.pcl' -printf x | wc -c)" -eq "$count" ]
for ended in 0 1 2; do right "too few end by $ended: $(cut -f 1 wanted | grep -cx $ended)" [ "$(cut -f 1 wanted | grep -cx $ended)" -ge $((count / 25)) ]; done

as_given=() # root may read everything
[ "$(id -u)" != 0 ] || as_given=(setpriv --bounding-set -dac_override,-dac_read_search)
said="$line" status=0 began=$EPOCHREALTIME
"${as_given[@]}" bash -c "$line" 2>errors || status=$?
took=$((${EPOCHREALTIME/./} - ${began/./}))
right "status $status, not 0" [ "$status" -eq 0 ]
right "says: $(cat errors)" [ ! -s errors ]
right "not $count lines: $(wc -l <statuses)" [ "$(wc -l <statuses)" -eq "$count" ]
right "other statuses than the second program's: $(diff wanted <(sort statuses) | head -n 5)" cmp -s wanted <(sort statuses)
while read -r ended chosen; do
  said="README.md, $chosen"
  right "is not there" grep -qF "\`awk '$chosen' statuses\`" "$root/README.md"
  right "has other jobs" cmp -s <(awk "$chosen" statuses | sort) <(grep "^$ended$(printf '\t')" wanted)
done <<'TEXT'
1 $1 == 1
2 $1 > 1
TEXT

# Each has what it says beside it; and a record, unless it cannot be read.
lacking=0 records=0 readable=()
for ((number = 0; number < count; number++)); do
  ended=${wanted[2 * number]} job=${wanted[2 * number + 1]}
  case $job,$ended in
  */shut/*,*) words="rovinuset: no permission to read: $job" ;;
  */folder/*,*) words="rovinuset: a directory, not a job: $job" ;;
  */link/*,*) words="rovinuset: no such file: $job" ;;
  */long/*,*) words="rovinuset: record: refused, number 12: job longer than 1,048,576 bytes" ;;
  *,0) words=", 0 findings, " ;;
  *,1) words=": $job.html" ;;
  *) words="something else" ;;
  esac
  last=$(tail -n 1 "$job.txt")
  case $last in *"$words"*) ;; *) lacking=$((lacking + 1)) && said=$job && right "says: $last" false ;; esac
  case $job in
  */shut/* | */folder/* | */link/*) [ ! -e "$job.html" ] || { said=$job && right "has a record" false; } ;;
  *)
    records=$((records + 1)) readable+=("$number")
    [ "$(tail -n 1 "$job.html")" = "</html>" ] || { said=$job && right "has no whole record" false; }
    ;;
  esac
done
said="the records"
right "$lacking say something else" [ "$lacking" -eq 0 ]
right "$records records, not $((count - count / 50))" [ "$records" -eq $((count - count / 50)) ]
right "other files are left: $(find jobs ! -name '*.pcl' ! -name '*.pcl.html' ! -name '*.pcl.txt' ! -type d)" \
  [ -z "$(find jobs ! -name '*.pcl' ! -name '*.pcl.html' ! -name '*.pcl.txt' ! -type d)" ]

# A record does not hang on what else is recorded at the time: one in 25 of them alone, byte for byte.
alone=0
for ((each = 11; each < records; each += 24)); do
  ended=${wanted[2 * readable[each]]} job=${wanted[2 * readable[each] + 1]} alone=$((alone + 1))
  call record "$job" -o alone.html
  right "status $status, not $ended" [ "$status" -eq "$ended" ]
  right "another record" cmp -s alone.html "$job.html"
done
said="alone" && right "$alone, not $((count / 25))" [ "$alone" -eq $((count / 25)) ]

echo "jobs: $count jobs on $(nproc) processors in $((took / 1000000)) seconds, $((took / count / 1000)) ms each"
counted jobs
