#!/bin/sh
# Validates the documents of check-jars, of affected and of the program's clients of all examples by docs/check-jars.schema.json, docs/affected.schema.json and
# docs/clients.schema.json: examples/documents.sh CLASSES, from any folder. CLASSES is what examples/replay-clients.sh has compiled, which calls this at its end.
#
# The logs of SARIF are validated by examples/sarif.schema.json, which has the constraints of the standard on what is used of it; and each result has to name its rule by its place, and a file
# that is there. Without a Python
# that has jsonschema (Debian's package python3-jsonschema), or without the built program, nothing is validated, which is said, and the status is 0, or 1 where
# JCOMPAT_ALL=1 asks for all.
set -eu

classes=$(readlink -f -- "${1:?usage: examples/documents.sh CLASSES}")
cd "$(dirname "$0")/.."

skip() {
    printf 'documents: not run: %s\n' "$1"
    [ "${JCOMPAT_ALL:-}" != 1 ] || exit 1
    exit 0
}

program=crates/jcompat/out/jcompat
[ -x "$program" ] || skip 'the program is not built'
python=
for each in /usr/bin/python3 python3; do
    [ -n "$python" ] || ! "$each" -c 'from jsonschema import Draft202012Validator' 2>/dev/null || python=$each
done
[ -n "$python" ] || skip 'no Python has jsonschema: install the package python3-jsonschema'

made=$(mktemp -d)
trap 'rm -rf "$made"' EXIT
tools/build-java "$made/jcompat.jar"
java -XX:TieredStopAtLevel=1 -cp "$made/jcompat.jar" examples/Documents.java "$program" examples/rules "$classes" "$made/out"
"$python" - docs/check-jars.schema.json docs/affected.schema.json examples/sarif.schema.json docs/clients.schema.json "$made/out" "$program" "$classes" <<'END'
import glob, json, os, subprocess, sys
from jsonschema import Draft202012Validator

validators = []
for name in sys.argv[1:5]:
    schema = json.load(open(name))
    Draft202012Validator.check_schema(schema)
    validators.append(Draft202012Validator(schema))
validator, of_affected, of_sarif, of_clients = validators
out, program, classes = sys.argv[5:8]
documents = sorted(glob.glob(os.path.join(out, "*.json")))
affected = sorted(glob.glob(os.path.join(out, "*.affected")))
wrong = 0
for name, by in [(name, validator) for name in documents] + [(name, of_affected) for name in affected]:
    for error in by.iter_errors(json.load(open(name))):
        wrong += 1
        print("documents:", os.path.basename(name), list(error.absolute_path), error.message)
# the client of an example whose report has a finding breaks, but for what is only seen as a module, and for the two of which docs/LINKING.md says that a
# machine refuses what `link` calls ok
unseen = {"class_in_descriptor_gone", "superclass_made_abstract"}
broken = 0
for name in affected:
    document = json.load(open(name))
    broken += document["status"] == 1
    compared = json.load(open(name.replace(".affected", ".json")))["comparisons"][0]
    keeps = os.path.basename(name).removesuffix(".affected") in unseen
    if compared["clients"] == "on the class path" and compared["counts"]["findings"] and document["status"] != (0 if keeps else 1):
        wrong += 1
        print("documents:", os.path.basename(name), "the client breaks, which wasn't seen before" if keeps else "the client keeps all, and the releases have a finding")
# the document of clients says what the text says: of the client of each example, and of its old release, whose classes no client may have
def lines_of(document):
    for client in document["clients"]:
        front = "client %d " % client["number"]
        if client["refusal"]:
            refusal = client["refusal"]
            place = "%s: " % refusal["path"] if refusal["path"] else "name %s " % refusal["class"] if refusal["class"] else ""
            yield front + "jcompat: client: " + place + refusal["reason"]
            continue
        for loss in client["lost"]:
            words = [loss[key] or "-" for key in ("operation", "name", "member", "receiver")]
            yield front + " ".join((["item", loss["class"]] + words if loss["operation"] else ["class", loss["class"]]) + [loss["error"]])
        word = "breaks" if client["lost"] else "keeps"
        yield front + "%s: %d classes, %d outcomes, %d errors before, %d lost" % (word, client["classes"], client["outcomes"], client["errors"], len(client["lost"]))
    total = document["total"]
    yield "clients: %d clients, %d broken, %d refused" % (total["clients"], total["broken"], total["refused"])

told = refused = 0
for folder in sorted(glob.glob(os.path.join(classes, "*"))):
    if not os.path.isdir(os.path.join(folder, "client")):
        continue
    old, new, client = (os.path.join(folder, each) for each in ("old", "new", "client"))
    for modular in ([], ["--modular"]):
        asked = [program, "clients", "--platform", "examples/platform", "--old", old, "--new", new] + modular
        text = subprocess.run(asked + [client, old], capture_output=True, text=True)
        run = subprocess.run(asked + ["--json", client, old], capture_output=True, text=True)
        if run.returncode not in (0, 1):
            continue
        document = json.loads(run.stdout)
        for error in of_clients.iter_errors(document):
            wrong += 1
            print("documents:", os.path.basename(folder), list(error.absolute_path), error.message)
        if list(lines_of(document)) != text.stdout.splitlines() or run.returncode != text.returncode:
            wrong += 1
            print("documents:", os.path.basename(folder), "the document of clients says other than the text")
        told += 1
        refused += document["total"]["refused"]
        sample = run.stdout
results = placed = 0
for name in sorted(glob.glob(os.path.join(out, "*.sarif"))):
    log = json.load(open(name))
    for error in of_sarif.iter_errors(log):
        wrong += 1
        print("documents:", os.path.basename(name), list(error.absolute_path), error.message)
    run = log["runs"][0]
    rules = [rule["id"] for rule in run["tool"]["driver"]["rules"]]
    for result in run["results"]:
        results += 1
        good = rules[result["ruleIndex"]] == result["ruleId"]
        for location in result["locations"]:
            physical = location.get("physicalLocation")
            if physical:
                placed += 1
                good = good and os.path.isfile(physical["artifactLocation"]["uri"])
        if not good:
            wrong += 1
            print("documents:", os.path.basename(name), result)
# a document that lacks a key, or has a wrong one, is refused
for edit in (lambda d: d.pop("status"), lambda d: d.update(version=2), lambda d: d["old"].update(sha256="0")):
    document = json.load(open(documents[0]))
    edit(document)
    if validator.is_valid(document):
        wrong += 1
        print("documents: the schema takes what it may not")
for edit in (lambda d: d.pop("counts"), lambda d: d.update(status=2), lambda d: d["clients"][0].update(says="not asked")):
    document = json.load(open(next(name for name in affected if json.load(open(name))["status"] == 1)))
    edit(document)
    if of_affected.is_valid(document):
        wrong += 1
        print("documents: the schema of affected takes what it may not")
for edit in (lambda d: d.pop("total"), lambda d: d["clients"][0].update(refusal=None, lost=None), lambda d: d["clients"][0].update(refusal={"class": None, "path": None, "reason": "limit files"})):
    document = json.loads(sample)
    edit(document)
    if of_clients.is_valid(document):
        wrong += 1
        print("documents: the schema of clients takes what it may not")
print("documents: %d, %d and %d documents by their schemas, %d clients that break, %d that are refused, %d results of SARIF, %d of them at a place: %s"
      % (len(documents), len(affected), told, broken, refused, results, placed, "ok" if wrong == 0 else "wrong"))
sys.exit(1 if wrong or len(documents) < 50 or len(affected) < 50 or told < 50 or refused < 20 or broken < 20 or placed < 10 else 0)
END
