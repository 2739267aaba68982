"""Tests the package's services under a real systemd: what the timers, the path unit and the alarm do. The tests also fill the disk, switch the machine off for
a week, and start several services at once."""
import os
import pathlib
import shutil
import time

import https
import machine
import pytest

HERE = pathlib.Path(__file__).resolve().parent
# The pages in dockers/ and the screen need Flask.
pytest.importorskip("flask", reason="there is no python3-flask")
# Booted systems share the control groups of this machine, so only one runs at a time.
pytestmark = pytest.mark.xdist_group("booted")
DAY = "2024-06-12"
# Makes an office that finds its extracts recent enough, with three places.
OFFICE = """
accepts_uncovered_days
set_to MAX_AGE 900000
set_to STILL 1
cp $examples/places $folder/places
"""


@pytest.fixture
def booted(package, tmp_path):
    if reason := machine.lacks():
        pytest.skip(reason)
    found = machine.Machine(tmp_path / "machine", package)
    yield found
    found.ends()


def test_the_package(booted):
    """Nothing is on before it is enabled. The morning and the evening write dockers, the screen shows the same, and after removal only the office is left."""
    booted.boots(f"""
        units='station-office.timer station-office-evening.timer station-office-fetch.timer station-office-arrivals.path station-office-screen.service'
        for unit in $units; do fails systemctl -q is-enabled $unit; fails systemctl -q is-active $unit; done
        cp -p $examples/*.cif $folder/in/
        touch -d "1 hour ago" $folder/in/*.cif
        cp $examples/places $folder/places
        fails systemctl start station-office@morning
        [ "$(status_of station-office@morning)" = 5 ]
        says station-office@morning 'old: the update DFROC1H'
        set_to MAX_AGE 900000
        accepts_uncovered_days
        systemctl start station-office@morning station-office@evening
        today=$(TZ=Europe/London date +%F)
        tomorrow=$(TZ=Europe/London date -d tomorrow +%F)
        [ "$(cd $folder/dockers && echo *)" = "$today $tomorrow" ]
        for day in $today $tomorrow; do
          [ "$(cd $folder/dockers/$day && echo *)" = 'ASHFELD.html ASHFELD.txt BRAYTON.html BRAYTON.txt CORHAM.html CORHAM.txt' ]
          runuser -u station-office -- station-office print $folder/office.state $day | grep -v '^# ' | cmp - <(grep -hv '^# ' $folder/dockers/$day/*.txt)
          [ "$(grep -l '<title>' $folder/dockers/$day/*.html | wc -l)" = 3 ]
        done
        [ -z "$(find $folder ! -user station-office)" ]
        systemctl enable --now $units
        systemctl list-timers --no-pager station-office.timer | grep ' 05:00:00 '
        systemctl list-timers --no-pager station-office-evening.timer | grep ' 20:00:00 '
        systemctl list-timers --no-pager station-office-fetch.timer | grep -E ' (04|12|19):3[0-5]:'
        eventually bash -c 'exec 3<>/dev/tcp/127.0.0.1/8480' 2>/dev/null
        runuser -u station-office -- station-office print $folder/office.state {DAY} | grep -v '^# ' >/printed
        for place in ASHFELD BRAYTON CORHAM; do
          python3 -c 'import sys, urllib.request; sys.stdout.buffer.write(urllib.request.urlopen(sys.argv[1]).read())' "http://127.0.0.1:8480/$place/{DAY}.txt"
        done | grep -v '^# ' | cmp - /printed
        systemctl -q is-active station-office-screen
        rm -r /etc/systemd/system/station-office@.service.d
        dpkg -r station-docker
        for unit in $units; do fails systemctl -q is-active $unit; done
        dpkg -P station-docker
        [ -z "$(find /etc -name 'station-office*')" ]
        [ -s $folder/office.state ]
    """)


def test_arrivals(booted):
    """A file that grows in in/ is taken when it is whole. A state that comes into swap/, which may be a link, is merged. Then the dockers are written again."""
    booted.boots(f"""{OFFICE}
        mkdir /srv/swap
        chown station-office /srv/swap
        ln -s /srv/swap $folder/swap
        mkdir -p /etc/systemd/system/station-office@.service.d
        printf '[Service]\\nReadWritePaths=/srv/swap\\n' >/etc/systemd/system/station-office@.service.d/swap.conf
        systemctl daemon-reload
        set_to STILL 3
        systemctl start station-office@morning
        systemctl start station-office-arrivals.path
        size=$(stat -c %s $examples/full.cif)
        for part in 0 1 2 3; do dd if=$examples/full.cif bs=$((size / 4 + 1)) skip=$part count=1 status=none >>$folder/in/full.cif; sleep 1.5; done
        eventually [ -s $folder/taken/full.cif.zst ]
        [ ! -e $folder/refused ]
        eventually grep -q 'ASHFELD JUNCTION' $folder/dockers/*/ASHFELD.txt
        mkdir /south
        station-office new /south/south.state
        station-office take /south/south.state $examples/monday.cif
        sleep 5
        zstd -q /south/south.state -o /srv/swap/south.state.zst
        eventually says station-office@arrivals 'south.state.zst: it brought the update DFROC1G'
        station-docker files $folder/office.state | grep DFROC1G
        eventually rests station-office@arrivals
        systemctl -q is-active station-office-arrivals.path
        fails systemctl -q is-failed station-office@arrivals
        cp -p $examples/tuesday.cif $folder/in/.hidden
        mv $folder/in/.hidden $folder/in/tuesday.cif
        eventually [ -s $folder/taken/tuesday.cif.zst ]
    """)


def test_the_alarm(booted):
    """After a failure the office's program runs, with the service's name and messages. Without a program nothing runs."""
    booted.boots("""
        cp -p $examples/*.cif $folder/in/
        fails systemctl start station-office@morning
        eventually results_in station-office-alarm@morning exec-condition
        fails systemctl -q is-failed station-office-alarm@morning
        printf '#!/bin/sh\\necho "$# $1" >/tmp/alarm.new; cat >>/tmp/alarm.new; mv /tmp/alarm.new /var/lib/station-office/alarmed\\n' >/alarm
        chmod 755 /alarm
        set_to ALARM /alarm
        fails systemctl start station-office@morning
        eventually [ -e $folder/alarmed ]
        cat $folder/alarmed
        head -n 1 $folder/alarmed | grep -x '1 station-office@morning.service'
        grep -q 'station-office: .*old: the update DFROC1H' $folder/alarmed
        rm $folder/alarmed
        set_to MAX_AGE 900000
        accepts_uncovered_days
        systemctl start station-office@morning
        sleep 1
        [ ! -e $folder/alarmed ]
    """)


def test_fetching(booted):
    """The service fetches if there is a file of sources. What comes is taken by the path unit."""
    folder = booted.path("https")
    folder.mkdir()
    https.makes_certificates(folder)
    shutil.copy(HERE / "https.py", folder)
    (folder / "serve.py").write_text("""import sys
        import https
        with https.serving("/https/good.pem") as server:
            server.answers_with("/full", https.sends_file(open(sys.argv[1], "rb").read(), '"one"'))
            print(server.server_port, flush=True)
            server.stopping.wait()
        """.replace("\n        ", "\n"))
    booted.boots(f"""{OFFICE}
        systemctl start station-office@fetch
        [ "$(systemctl show -P ConditionResult station-office@fetch)" = no ]
        python3 -B /https/serve.py $examples/full.cif >/port &
        eventually [ -s /port ]
        cp /https/authority.pem $folder/
        printf '[full]\\naddress = https://localhost:%s/full\\nauthority = authority.pem\\n' "$(cat /port)" >$folder/sources
        chown station-office $folder/sources
        fails systemctl start station-office@fetch
        says station-office@fetch 'other users may read or write it'
        chmod 600 $folder/sources
        systemctl start station-office-arrivals.path
        systemctl start station-office@fetch
        says station-office@fetch 'source full: /var/lib/station-office/in/full-'
        eventually bash -c 'ls /var/lib/station-office/taken/full-*.cif.zst'
        systemctl start station-office@fetch
        says station-office@fetch 'source full: it has nothing newer than what came on'
        systemctl start station-office@morning
        says station-office@morning 'source full: in/full-'
    """)


def test_a_week_without_power(booted):
    """What was missed while the machine was off is done once when it is on again, and all of it at once."""
    booted.boots(f"""{OFFICE}
        cp -p $examples/*.cif $folder/in/
        systemctl enable --now station-office.timer station-office-evening.timer station-office-fetch.timer station-office-arrivals.path
        sleep 1
        [ -z "$(ls $folder/dockers)" ]
        [ "$(ls /var/lib/systemd/timers | grep -c '^stamp-station-office')" = 3 ]
    """)
    week = time.time() - 7 * 86400
    for stamp in booted.path("var/lib/systemd/timers").glob("stamp-station-office*"):
        os.utime(stamp, (week, week))
    booted.boots("""
        eventually [ -e $folder/dockers/$(TZ=Europe/London date -d tomorrow +%F)/CORHAM.html -a -e $folder/dockers/$(TZ=Europe/London date +%F)/CORHAM.html ]
        for job in morning evening; do
          eventually rests station-office@$job
          fails systemctl -q is-failed station-office@$job
          [ "$(journalctl --no-pager -o cat -b -u station-office@$job | grep -c '^Finished')" = 1 ]
        done
        [ "$(ls $folder/dockers/*/*.txt $folder/dockers/*/*.html | wc -l)" = 12 ]
        [ "$(station-docker files $folder/office.state | wc -l)" = 3 ]
        [ -z "$(ls $folder/in)" ]
    """)


def test_several_at_once(booted):
    """The morning, the evening and the arrivals may start in the same moment, even if they are the first."""
    booted.boots(f"""{OFFICE}
        cp -p $examples/*.cif $folder/in/
        for _ in 1 2 3; do
          systemctl start --no-block station-office@morning station-office@evening station-office@arrivals
          for job in morning evening arrivals; do
            eventually rests station-office@$job
            [ "$(systemctl show -P Result station-office@$job)" = success ]
          done
        done
        [ "$(station-docker files $folder/office.state | wc -l)" = 3 ]
        [ "$(ls $folder/taken)" = "$(printf '%s\\n' full.cif.zst list monday.cif.zst tuesday.cif.zst)" ]
        [ "$(ls $folder/dockers/*/*.txt $folder/dockers/*/*.html | wc -l)" = 12 ]
        [ -z "$(find $folder -name '.*.new' -o -name '*.work')" ]
    """)


def test_a_full_disk(booted):
    """On a full disk the service fails and says so, and the office stays as it was. With room again, it does what it couldn't."""
    booted.boots(f"""{OFFICE}
        cp -a $folder /copy
        mount -t tmpfs -o size=2m tmpfs $folder
        cp -a /copy/. $folder/
        chown station-office: $folder
        cp -p $examples/full.cif $folder/in/
        systemctl start station-office@morning
        sum=$(sha256sum <$folder/office.state)
        find $folder/dockers -name '*.txt' | sort | xargs cat | grep -v '^# ' >/before
        cp -p $examples/monday.cif $examples/tuesday.cif $folder/in/
        dd if=/dev/zero of=$folder/fill bs=4k status=none || true
        systemctl start station-office@morning || true
        says station-office@morning 'failed (status 4)'
        says station-office@morning 'the disk is full: '
        [ "$(sha256sum <$folder/office.state)" = "$sum" ]
        find $folder/dockers -name '*.txt' | sort | xargs cat | grep -v '^# ' | diff - /before
        [ -z "$(find $folder/dockers -name '.*')" ]
        rm $folder/fill
        systemctl start station-office@morning
        [ "$(station-docker files $folder/office.state | wc -l)" = 3 ]
        [ -z "$(ls $folder/in)" ]
        [ "$(ls $folder/dockers/*/*.html | wc -l)" = 3 ]
    """)
