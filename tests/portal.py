"""deploy/bikeshare-portal over a running city, and the words of deploy/bikeshare-doctor for what the office gives it: a
reader of GBFS v3.0 finds nothing wrong in what is published, each fault of the office's files is one line, and nothing
of a file that isn't good is published.

The test through the gateway needs nginx, and a line says where there is none.
"""

import contextlib
import copy
import http.server
import json
import os
import re
import shutil
import subprocess
import sys
import threading
import time
import urllib.error
import urllib.request
from pathlib import Path

from doctor import doctor, moment_in, told
from operating import Gateway
from package import sections_of
from shared import CITY, FEEDS, TOP, Server, accepted, city, free_port, needs, ran

SCRIPT = TOP / "deploy/bikeshare-portal"
PAGE, COMPLETION = TOP / "deploy/bikeshare-portal.1", TOP / "deploy/bikeshare-portal.bash"
SECONDS = 30
OWN_MEMBERS = ["system_id", "languages", "name", "opening_hours", "feed_contact_email", "timezone"]
MEMBERS = {
    "license_id": "CC-BY-4.0", "attribution_organization_name": [{"text": "Metro: Räder", "language": "en"}],
    "terms_url": [{"text": "https://metro.example/terms", "language": "en"}], "terms_last_updated": "2026-11-01",
    "privacy_url": [{"text": "https://metro.example/privacy", "language": "en"}], "privacy_last_updated": "2026-11-01",
    "rental_apps": {"ios": {"store_uri": "https://apps.example/1", "discovery_uri": "metro://"}},
    "manifest_url": "https://metro.example/gbfs/portal/manifest.json",
}


def alerts(**changed_members):
    """A closed station, with these members changed, or left out where there is no value."""
    alert = {
        "alert_id": "1", "type": "station_closure", "summary": [{"text": "Closed for works", "language": "en"}],
        "station_ids": ["a1"], "times": [{"start": moment_in(-3600), "end": moment_in(86_400)}], **changed_members,
    }
    return {"alerts": [{name: it for name, it in alert.items() if it is not None}]}


def manifest(*rows):
    """A manifest with these systems, each with the address of its feed gbfs."""
    rows = rows or (("metro", "https://metro.example/gbfs/portal/gbfs.json"),)
    datasets = [{"system_id": name, "versions": [{"version": "3.0", "url": url}]} for name, url in rows]
    return {"last_updated": "2026-11-30T12:00:00Z", "ttl": 86_400, "version": "3.0", "data": {"datasets": datasets}}


def given(folder, **files):
    """The folder with these files of the office, each an object, or a text; others are removed."""
    folder.mkdir(exist_ok=True)
    for it in folder.iterdir():
        it.unlink()
    for name, it in files.items():
        (folder / f"{name}.json").write_text(it if isinstance(it, str) else json.dumps(it), encoding="utf-8")
    return folder


def made(url, office, folder):
    """Has the script make what portals get: its status, and its lines."""
    status, said = ran(SCRIPT, url, office, folder)
    return status, said.splitlines()


def in_folder(folder):
    """What is published: each feed by its name."""
    return {it.stem: json.loads(it.read_text(encoding="utf-8")) for it in folder.iterdir()}


@contextlib.contextmanager
def published(program, folder, port=None):
    """Serves a city's feeds at their own addresses, and what is in a folder beside them, as the gateway does: the
    address of both, and the program's own."""
    port = port or free_port()

    class Handler(http.server.BaseHTTPRequestHandler):
        def do_GET(self):
            name = self.path.removeprefix("/gbfs/portal/")
            if name != self.path:
                path = folder / name
                data = path.read_bytes() if path.is_file() else b""
            else:
                try:
                    with urllib.request.urlopen(f"{own}{self.path}", timeout=SECONDS) as answer:
                        data = answer.read()
                except urllib.error.URLError:
                    data = b""
            self.send_response(200 if data else 404)
            self.end_headers()
            self.wfile.write(data)

        def log_message(self, *_):
            pass

    system = CITY[0].replace("127.0.0.1:8080", f"127.0.0.1:{port}")
    more = ["add-region\tnorth\tNorth", "set-region\ta1\tnorth"]
    accepted(program, [system, *CITY[1:], *more], at=int(time.time()), key="p")
    with Server(program) as server, http.server.ThreadingHTTPServer(("127.0.0.1", port), Handler) as public:
        own = f"http://127.0.0.1:{server.port}"
        threading.Thread(target=public.serve_forever, args=(0.01,), daemon=True).start()
        try:
            yield f"http://127.0.0.1:{port}", own, server
        finally:
            public.shutdown()


def test_what_portals_read(program):
    """A strict reader finds nothing wrong in the feeds of both, nor misses what the office gave. The program's members
    and moments are as they were, and the office's stand behind."""
    office, folder = Path(program.folder, "office"), Path(program.folder, "published")
    with published(program, folder) as (here, own, server):
        given(office, system_information=MEMBERS, system_alerts=alerts(), manifest=manifest())
        assert told("portal", office, own) == (0, []), told("portal", office, own)
        before = time.time()
        assert made(own, office, folder) == (0, [])
        at = f"{here}/gbfs/portal/gbfs.json"
        assert told("feed", at) == (0, []), told("feed", at)
        status, strict = told("feed", at, "--strict")
        assert status == 1 and {it.split(", ")[0].split(":")[0] for it in strict} == {
            "vehicle_types", "station_information"
        }, strict
        found = in_folder(folder)
        assert sorted(found) == ["gbfs", "gbfs_versions", "manifest", "system_alerts", "system_information"]
        about = server.told("/gbfs/3.0/system_information.json")
        frame = {name: it for name, it in found["system_information"].items() if name != "data"}
        assert frame == {**{it: about[it] for it in ("ttl", "version")}, "last_updated": frame["last_updated"]}
        assert moment_in(before - 1 - time.time()) <= frame["last_updated"] <= about["last_updated"], frame
        assert list(found["system_information"]["data"]) == OWN_MEMBERS + list(MEMBERS), found["system_information"]
        assert found["system_information"]["data"] == {**about["data"], **MEMBERS}
        text = (folder / "system_information.json").read_text(encoding="utf-8")
        own_text = json.dumps(about["data"], ensure_ascii=False, separators=(",", ":"))
        assert f'"data":{own_text[:-1]},"license_id":"CC-BY-4.0",' in text and "Räder" in text, text
        listed = {it["name"]: it["url"] for it in found["gbfs"]["data"]["feeds"]}
        beside = ["system_information", "gbfs_versions", "system_alerts"]
        assert list(listed) == [*FEEDS[1:], *beside[1:]], listed
        for name, url in listed.items():
            assert url == f"{here}/gbfs/{'portal' if name in beside else '3.0'}/{name}.json", listed
        assert found["gbfs_versions"]["data"] == {"versions": [{"version": "3.0", "url": at}]}
        assert found["manifest"] == manifest() and found["system_alerts"]["data"]["alerts"][0]["station_ids"] == ["a1"]
        assert {it["ttl"] for name, it in found.items() if name != "manifest"} == {30}
        # The program's own feeds are there as they were.
        assert told("feed", here) == (0, [])
        # What somebody else publishes so is held to the same.
        terms = {"terms_url": [{"text": "https://metro.example/terms", "language": "en"}]}
        for name, data, where, word in (
            ("system_information", {**about["data"], **terms}, "system_information, data", "GBFS"),
            ("gbfs_versions", {"versions": [{"version": "2.3", "url": at}]}, "gbfs_versions, data.versions", "GBFS"),
            ("system_alerts", {"alerts": alerts()["alerts"] * 2}, "system_alerts, data.alerts", "GBFS"),
            ("system_alerts", alerts(summary=None), "system_alerts, data.alerts[0]", "GBFS"),
            ("system_alerts", alerts(station_ids=["zz"]), "system_alerts", "missing"),
            ("system_alerts", alerts(station_ids=None), "system_alerts, 1", "doubtful"),
            ("system_alerts", alerts(summary=[{"text": " ", "language": "en"}]), "system_alerts", "doubtful"),
        ):
            (folder / f"{name}.json").write_text(json.dumps({**about, "data": data}), encoding="utf-8")
            listed = doctor.findings_of_feeds(at, time.time())
            assert [(it.where, it.word) for it in listed] == [(where, word)], (name, data, listed)
            (folder / f"{name}.json").write_text(json.dumps(found[name]), encoding="utf-8")


def test_what_is_published(program):
    """Each of the office's files may be missing. One that isn't good is told in a line, and the one of before stays;
    one that is taken away goes. While the program is away alerts alone are made."""
    office, folder = Path(program.folder, "office"), Path(program.folder, "published")

    def names():
        listed = [it["name"] for it in in_folder(folder)["gbfs"]["data"]["feeds"]]
        assert [it for it in listed if it in FEEDS] == FEEDS[1:], listed
        return [it for it in listed if it not in FEEDS], sorted(it.stem for it in folder.iterdir())

    def addresses():
        return {it["name"]: it["url"].split("/")[-2] for it in in_folder(folder)["gbfs"]["data"]["feeds"]}

    with published(program, folder) as (here, own, server):
        status, said = made(own, office, folder)
        assert status == 1 and said == [f"{office}: No such file or directory."], said
        assert made(own, given(office), folder) == (0, [])
        assert names() == (["gbfs_versions"], ["gbfs", "gbfs_versions"]), names()
        assert addresses()["system_information"] == "3.0" and told("feed", f"{here}/gbfs/portal/gbfs.json") == (0, [])
        given(office, system_alerts=alerts())
        assert made(own, office, folder) == (0, [])
        assert names() == (["gbfs_versions", "system_alerts"], ["gbfs", "gbfs_versions", "system_alerts"]), names()
        # What isn't good.
        before = in_folder(folder)["system_alerts"]
        given(office, system_alerts=alerts(type="closed"), system_information='{"license_id": ', manifest="[]")
        status, said = made(own, office, folder)
        assert status == 1 and len(said) == 3, said
        assert said[0].startswith("system_information: not read: ") and "is no JSON of UTF-8" in said[0], said
        assert said[1] == (
            "system_alerts, alerts[0].type: GBFS: '\"closed\"' is none of other, station_closure, station_move, "
            "system_closure."
        ), said
        assert said[2] == "manifest: GBFS: it is no object.", said
        assert in_folder(folder)["system_alerts"] == before and names()[0] == ["gbfs_versions", "system_alerts"]
        # The program is away.
        server.stop()
        time.sleep(1.1)
        given(office, system_alerts=alerts(alert_id="2"))
        held = in_folder(folder)
        status, said = made(own, office, folder)
        assert status == 1 and len(said) == 1 and "can't be read" in said[0], said
        found = in_folder(folder)
        assert found.pop("system_alerts")["data"]["alerts"][0]["alert_id"] == "2"
        assert held.pop("system_alerts") and found == held, found
    shutil.rmtree(folder)
    with Server(program) as server:
        own = f"http://127.0.0.1:{server.port}"
        # What is taken away.
        given(office, system_information=MEMBERS, system_alerts=alerts(), manifest=manifest())
        assert made(own, office, folder)[0] == 0 and addresses()["system_information"] == "portal"
        assert made(own, given(office), folder) == (0, [])
        assert names()[1] == ["gbfs", "gbfs_versions"] and addresses()["system_information"] == "3.0"
        # A folder that can't be written.
        (folder / "gbfs.json").unlink()
        (folder / "gbfs.json").mkdir()
        status, said = made(own, office, folder)
        assert status == 1 and len(said) == 1 and said[0].endswith(": Is a directory."), said
        assert sorted(it.name for it in folder.iterdir()) == ["gbfs.json", "gbfs_versions.json"], said
    status, said = made("http://127.0.0.1:1", given(office, system_alerts=alerts()), Path(program.folder, "other"))
    assert status == 1 and len(said) == 1 and not list(Path(program.folder, "other").iterdir()), said


def planted():
    """Faults: the file and what stands in it, where the fault is found, and by which word."""
    text, url = [{"text": "x", "language": "en"}], [{"text": "https://metro.example/x", "language": "en"}]
    old = {"start": "2024-03-31T12:00:00Z", "end": "2024-04-01T12:00:00Z"}
    about, alert, systems = "system_information", "system_alerts", "manifest"
    frame, (dataset,) = manifest(), manifest()["data"]["datasets"]

    def with_data(*rows):
        return {**frame, "data": {"datasets": list(rows)}}

    return (
        (about, "{", about, "not read"), (about, "[]", about, "GBFS"),
        (about, '{"license_id": "MIT", "license_id": "MIT"}', about, "GBFS"),
        (about, {"license_id": "CC BY 4.0"}, f"{about}, license_id", "GBFS"),
        (about, {"system_id": "x"}, about, "GBFS"),
        (about, {"license": "CC-BY-4.0"}, about, "GBFS"), (about, {"terms_url": url}, about, "GBFS"),
        (about, {"privacy_url": url}, about, "GBFS"), (about, {"terms_url": "x"}, f"{about}, terms_url", "GBFS"),
        (about, {"license_id": "MIT", "license_url": "https://x.example"}, about, "doubtful"),
        (about, {"terms_last_updated": "1.11.2026"}, f"{about}, terms_last_updated", "GBFS"),
        (about, {"rental_apps": {"ios": {"store_uri": "https://x.example"}}}, f"{about}, rental_apps.ios", "GBFS"),
        (about, {"attribution_organization_name": [{"text": " ", "language": "en"}]}, "attribution_organization_name",
         "doubtful"),
        (about, {"operator": [{"text": "x", "language": "it"}]}, "languages", "missing"),
        (alert, [], alert, "GBFS"), (alert, {"alerts": {}}, f"{alert}, alerts", "GBFS"),
        (alert, alerts(alert_id=None), f"{alert}, alerts[0]", "GBFS"),
        (alert, alerts(alert_id=7), f"{alert}, alerts[0].alert_id", "GBFS"),
        (alert, {"alerts": alerts()["alerts"] * 2}, f"{alert}, alerts", "GBFS"),
        (alert, alerts(type="STATION_CLOSURE"), f"{alert}, alerts[0].type", "GBFS"),
        (alert, alerts(summary="Closed"), f"{alert}, alerts[0].summary", "GBFS"),
        (alert, alerts(summary=[]), f"{alert}, alerts[0].summary", "GBFS"),
        (alert, alerts(summary=text * 2), f"{alert}, alerts[0].summary", "GBFS"),
        (alert, alerts(description=[{"text": "x"}]), f"{alert}, alerts[0].description[0]", "GBFS"),
        (alert, alerts(url="https://metro.example"), f"{alert}, alerts[0].url", "GBFS"),
        (alert, alerts(times=[{"end": moment_in(9)}]), f"{alert}, alerts[0].times[0]", "GBFS"),
        (alert, alerts(times=[{"start": 1_700_000_000}]), f"{alert}, alerts[0].times[0].start", "GBFS"),
        (alert, alerts(times=[{"start": moment_in(9), "end": moment_in(-9)}]), f"{alert}, alerts[0].times[0]", "GBFS"),
        (alert, alerts(last_updated="today"), f"{alert}, alerts[0].last_updated", "GBFS"),
        (alert, alerts(station_ids="a1"), f"{alert}, alerts[0].station_ids", "GBFS"),
        (alert, alerts(stations=["a1"]), f"{alert}, alerts[0]", "GBFS"),
        (alert, alerts(station_ids=["a1", "zz"]), alert, "missing"),
        (alert, alerts(region_ids=["south"]), alert, "missing"),
        (alert, alerts(summary=[{"text": "Chiusa", "language": "it"}]), "languages", "missing"),
        (alert, alerts(station_ids=None), f"{alert}, 1", "doubtful"),
        (alert, alerts(region_ids=[]), f"{alert}, 1", "doubtful"),
        (alert, alerts(times=[old]), f"{alert}, 1", "doubtful"),
        (alert, alerts(description=[{"text": "", "language": "en"}]), "1", "doubtful"),
        ("alerts", alerts(), "alerts.json", "not read"),
        (systems, {**frame, "ttl": -1}, f"{systems}, ttl", "GBFS"), (systems, [], systems, "GBFS"),
        (systems, with_data({**dataset, "versions": []}), f"{systems}, data.datasets[0].versions", "GBFS"),
        (systems, with_data(), f"{systems}, data.datasets", "GBFS"),
        (systems, with_data({**dataset, "name": "x"}), f"{systems}, data.datasets[0]", "GBFS"),
        (systems, manifest(("other", "https://metro.example/gbfs/portal/gbfs.json")), systems, "missing"),
    )


def test_faults_of_the_offices_files(program):
    """Of good files nothing is said, and of each fault one line, whose place it names."""
    office, wrong = Path(program.folder, "office"), []
    with published(program, Path(program.folder, "published")) as (_, own, _server):
        for name, it, where, word in planted():
            files = {"system_information": {"manifest_url": MEMBERS["manifest_url"]}} if name == "manifest" else {}
            found = doctor.findings_of_portal(given(office, **{**files, name: it}), own, time.time())
            if [(one.where, one.word) for one in found] != [(where, word)]:
                wrong.append((it, where, word, found))
        assert not wrong, "\n".join(map(str, wrong))
        # Without the city's feeds what isn't in them isn't asked for.
        assert told("portal", given(office, system_alerts=alerts(station_ids=["zz"]))) == (0, [])
        status, said = told("portal", given(office, system_information={}, manifest=manifest()))
        assert status == 1 and len(said) == 1 and "manifest_url" in said[0], said
    status, said = told("portal", office, own)
    assert status == 1 and said[0].startswith("gbfs: not read: "), said
    assert told("portal", Path(program.folder, "none"))[0] == 1


def test_manifest(program):
    """Of a manifest each fault is one line, and each of its addresses, or of those given, has to be the system's that
    it says."""
    file = Path(program.folder, "manifest.json")

    def said_of(it, *urls):
        file.write_text(it if isinstance(it, str) else json.dumps(it))
        status, said = told("manifest", file, *urls)
        assert (status == 1) == bool(said), (status, said)
        return said

    (program_two := copy.copy(program)).folder = str(Path(program.folder, "two"))
    Path(program_two.folder).mkdir()
    one, two = Path(program.folder, "published"), Path(program_two.folder, "published")
    with published(program, one) as (here, own, _), published(program_two, two) as (there, own_two, _):
        good = manifest(("metro", f"{here}/gbfs/3.0/gbfs.json"))
        assert said_of(good) == [] and said_of(good, own, here) == []
        (said,) = said_of(manifest(("rome", f"{here}/gbfs/3.0/gbfs.json")))
        assert said == f"rome: missing: the system_id at {here}/gbfs/3.0/gbfs.json is metro.", said
        (said,) = said_of(manifest(("rome", "https://rome.example/gbfs.json")), own_two)
        assert said.endswith("its system_id is metro, which the manifest doesn't list."), said
        (said,) = said_of(manifest(("metro", f"{here}/gbfs/3.0/station_status.json")))
        assert said.startswith("metro: not read: ") and "is no feed gbfs of GBFS 3.0" in said, said
        (said,) = said_of(manifest(("metro", f"{there}/gbfs/portal/gbfs.json")))
        assert said.startswith("metro: not read: ") and "answers 404" in said, said
        both = manifest(("metro", f"{here}/gbfs/3.0/gbfs.json"), ("metro", f"{there}/gbfs/3.0/gbfs.json"))
        assert said_of(both) == ["manifest, data.datasets: GBFS: 'metro' is the system_id of two."], said_of(both)
        (said,) = said_of(manifest(("metro", f"{here}/gbfs/3.0/gbfs.json"), ("rome", f"{here}/gbfs/3.0/gbfs.json")))
        assert said.startswith("manifest, data.datasets: GBFS: ") and said.endswith("is the address of two."), said
        for url, word in (("http://metro.example/x", "http://"), ("https://10.0.0.1/x", "private network")):
            (said,) = said_of(manifest(("metro", url)), own)
            assert said.startswith("manifest, metro: doubtful: ") and word in said, said
    row = "manifest, data.datasets[0]"
    for it, where in (
        ("", "manifest: not read"), ("{}x", "manifest: not read"), ("[]", "manifest: GBFS"),
        ({**good, "version": "2.3"}, "manifest, version: GBFS"),
        ({**good, "last_updated": 1}, "manifest, last_updated: GBFS"),
        (json.dumps(good).replace('"3.0", "url"', '"2.3", "url"'), f"{row}.versions[0].version: GBFS"),
        (manifest(("metro", "ftp://metro.example")), f"{row}.versions[0].url: GBFS"),
        (manifest(("me tro", "https://metro.example")), f"{row}.system_id: GBFS"),
    ):
        (said,) = said_of(it)
        assert said.startswith(f"{where}: "), (it, said)
    file.unlink()
    assert told("manifest", file) == (1, [f"{file}: not read: there is no such file."])


@needs("nginx")
def test_through_the_gateway(program):
    """What was made is published with the fields that feeds have, and what wasn't is 404. A reader behind the gateway
    finds nothing wrong but that it is asked without TLS here."""
    city(program)
    office = given(Path(program.folder, "office"), system_information=MEMBERS, system_alerts=alerts())
    change = "change-system\tMetro\t24/7\tfeeds@example.org\tEtc/UTC\thttp://metro.example\t30"
    fresh = ["mark-dock\ta1\t1\tworking", change]
    accepted(program, fresh, at=int(time.time()), key="g")
    with Server(program) as server, Gateway(program, {"metro": server.port}) as gateway:
        own, folder = f"http://127.0.0.1:{server.port}", gateway.folder / "portal/metro"
        status, head, body = gateway.ask("GET", "/gbfs/portal/gbfs.json")
        assert (status, body["name"], head["Cache-Control"]) == (404, "not_found", "no-store"), (status, body)
        assert head["Access-Control-Allow-Origin"] == "*" and gateway.told("GET", "/gbfs/portal/x.json")[0] == 404
        assert made(own, office, folder) == (0, [])
        for name in ("gbfs", "gbfs_versions", "system_information", "system_alerts"):
            status, head, body = gateway.ask("GET", f"/gbfs/portal/{name}.json")
            assert (status, body) == (200, in_folder(folder)[name]), (name, status)
            assert (head["Content-Type"], head["Cache-Control"]) == ("application/json", "public, max-age=30"), head
            assert head["Access-Control-Allow-Origin"] == "*" and head["Last-Modified"] is None, head
            assert head["Vary"] == "Accept-Encoding" and head["Date"] and not head["Set-Cookie"], head
            again = gateway.ask("GET", f"/gbfs/portal/{name}.json", If_None_Match=head["ETag"])
            assert again[0] == 304 and again[2] is None and again[1]["ETag"] == head["ETag"], again
            status, short, _ = gateway.ask("GET", f"/gbfs/portal/{name}.json", Accept_Encoding="gzip")
            assert short["Content-Encoding"] == ("gzip" if len(json.dumps(body)) > 600 else None) or len(
                json.dumps(body)
            ) < 700, (name, short)
            assert gateway.ask("HEAD", f"/gbfs/portal/{name}.json")[0] == 200
            assert gateway.told("POST", f"/gbfs/portal/{name}.json", None, "{}") == (405, "method_not_allowed")
        assert gateway.told("GET", "/gbfs/portal/manifest.json")[0] == 404
        assert gateway.ask("OPTIONS", "/gbfs/portal/gbfs.json")[0] == 204
        # The program's own feeds are as it writes them.
        data = server.told("/gbfs/3.0/gbfs.json")["data"]
        assert gateway.ask("GET", "/gbfs/3.0/gbfs.json")[2]["data"] == data
        # So many at once the gateway gives to one address.
        time.sleep(3)
        env = {**os.environ, "http_proxy": f"http://127.0.0.1:{gateway.port}", "no_proxy": ""}
        status, said = told("feed", "http://metro.example/gbfs/portal/gbfs.json", env=env)
        assert status == 1 and len(said) == 1 and "begins with http://" in said[0], said
        # They outlive the program, and are made by who isn't root.
        server.stop()
        assert gateway.told("GET", "/gbfs/portal/system_alerts.json") == (200, "")


def test_words(program):
    """Wrong words have the status 2 and the usage, and without the doctor it says so."""
    for words in ((), ("a",), ("a", "b"), ("a", "b", "c", "d"), ("a", "b", "c", "--x")):
        status, said = ran(SCRIPT, *words)
        assert status == 2 and said.startswith("usage: bikeshare-portal "), (words, status, said)
    copied = Path(program.folder, "copy")
    shutil.copy(SCRIPT, copied)
    done = subprocess.run(
        [sys.executable, copied, "http://127.0.0.1:1", ".", "to"], cwd=program.folder, capture_output=True, text=True,
        env={**os.environ, "PATH": "/nowhere"}, timeout=SECONDS, check=False,
    )
    assert done.returncode == 1 and done.stdout.startswith("there is no bikeshare-doctor"), done


def test_what_the_journal_takes(program):
    """Of a run of the unit it takes the script's lines, and of systemd's none where all was made: those are of no such
    level."""
    unit = (TOP / "deploy/bikeshare-portal@.service").read_text(encoding="utf-8")
    assert re.findall(r"^(?:SyslogLevel|LogLevelMax)=(.*)$", unit, re.M) == ["warning"] * 2, unit


def test_page_and_completion(program):
    """The manual page has the words and the statuses of the script, the members that the office may give, and examples
    in which nothing is wrong; bash proposes folders."""
    page = sections_of(PAGE.read_text(encoding="utf-8"))
    status, said = ran(SCRIPT, "--help")
    usage = said.split("\n")[0].removeprefix("usage: ").replace(" [-h]", "")
    assert status == 0 and page["SYNOPSIS"] == [("", usage)], (said, page["SYNOPSIS"])
    assert {it for it, _ in page["EXIT STATUS"] if it} == {"0", "1", "2", "3"}
    files = {head: text for head, text in page["FILES"] if head}
    assert set(files) == {f"{it}.json" for it in (*doctor.OFFICE_FILES, "gbfs_versions", "gbfs")}, files
    told_of = set(re.findall(r"\w+", files["system_information.json"]))
    assert {it.rstrip("?") for it in doctor.OFFICE_MEMBERS} <= told_of, doctor.OFFICE_MEMBERS
    (alert,) = doctor.SHAPES["system_alerts"]["alerts"]
    assert {it.rstrip("?") for it in alert} <= set(re.findall(r"\w+", files["system_alerts.json"]))
    text = PAGE.read_text(encoding="utf-8").split(".SH EXAMPLES\n.nf\n")[1].replace("\\-", "-")
    about, closed, systems = text.split("\n\n")[:3]
    # Tomorrow: an alert that is over is doubtful.
    closed = re.sub('"20[0-9-]{8}', f'"{moment_in(86_400)[:10]}', closed)
    office = given(Path(program.folder, "office"), system_information=about, system_alerts=closed, manifest=systems)
    assert told("portal", office) == (0, []), told("portal", office)
    script = f'. "{COMPLETION}"; COMP_WORDS=("$@"); COMP_CWORD=$(($# - 1)); _bikeshare_portal'
    script += '; printf "%s\\n" "${COMPREPLY[@]}"'
    completed = [
        ran("bash", "-c", script, "bash", "bikeshare-portal", *words, cwd=program.folder)[1].split()
        for words in (("",), ("http://x", ""), ("http://x", "office", "o"), ("http://x", "a", "b", ""))
    ]
    assert completed == [[], ["office"], ["office"], []], completed
