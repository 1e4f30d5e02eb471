#!/usr/bin/env python3
"""Prints what the Debian package holds and needs, as an SPDX 2.3 document in JSON.

    package/sbom.py ROOT VERSION DAY

ROOT is the folder from which the package is built: each of its files is listed with its checksums. The
crates in the program are those of crates.txt that `plateroom` reaches, the parts of the kit those of
NOTICE's table, and the Debian packages those of package/control. The text depends on nothing else, so that
two builds have the same.
"""
import hashlib
import json
import os
import re
import sys
import uuid

TOP = os.path.join(os.path.dirname(os.path.abspath(__file__)), "..")
OWN = "MIT OR Apache-2.0"
AUTHORS = "The plateroom authors"

# What NOTICE's table says of a licence, as SPDX has it. A wording that isn't here stops the build.
LICENCES = {
    "MIT text (LICENSE-MIT); the page names an UNLICENSE too": "MIT",
    "MIT or Apache-2.0": "MIT OR Apache-2.0",
    "MIT or Apache-2.0; it writes code when the program is compiled": "MIT OR Apache-2.0",
    "Apache-2.0 or MIT": "Apache-2.0 OR MIT",
    "Apache-2.0 or BSL-1.0; the algorithm MIT": "(Apache-2.0 OR BSL-1.0) AND MIT",
    "none is stated": "NONE",
}

# How a Debian package of each field of package/control is related to plateroom.
DEBIAN = {"Depends": "RUNTIME_DEPENDENCY_OF", "Recommends": "OPTIONAL_DEPENDENCY_OF",
          "Suggests": "OPTIONAL_DEPENDENCY_OF"}


def text_of(name):
    with open(os.path.join(TOP, name), encoding="utf-8") as file:
        return file.read()


def identifier(kind, name):
    return f"SPDXRef-{kind}-" + re.sub(r"[^A-Za-z0-9.-]", "-", name)


def package(kind, name, licence, **fields):
    """A package whose files aren't listed."""
    return {
        "SPDXID": identifier(kind, name),
        "name": name,
        "downloadLocation": "NOASSERTION",
        "filesAnalyzed": False,
        "licenseConcluded": "NOASSERTION",
        "licenseDeclared": licence,
        "copyrightText": "NOASSERTION",
    } | fields


def relation(one, kind, other):
    return {"spdxElementId": one, "relationshipType": kind, "relatedSpdxElement": other}


def linked_crates():
    """The crates of plateroom that are in the program, each with the names on which it depends."""
    table = {}
    for line in text_of("crates.txt").splitlines():
        head, colon, needs = line.partition(":")
        if colon and not line.startswith("#"):
            table[head.split()[0]] = needs.split()
    reached, waiting = {}, ["plateroom"]
    while waiting:
        name = waiting.pop()
        if name in table and name not in reached:
            reached[name] = table[name]
            waiting += table[name]
    return dict(sorted(reached.items()))


def kit_parts():
    """The rows of NOTICE's table: part, after what, licence, copyright."""
    rows = [[cell.strip() for cell in line.strip("|").split("|")] for line in text_of("NOTICE").splitlines()
            if line.startswith("| ")]
    for part, after, licence, copyright in rows[1:]:
        if licence not in LICENCES:
            sys.exit(f"package/sbom.py: NOTICE has a licence that LICENCES doesn't know: {licence}")
        name = re.match(r"\w+", part)[0]
        notes = {"copyrightText": "NONE" if copyright == "none" else copyright}
        notes["comment"] = f"NOTICE: {part}; after {after}."
        yield name, package("kit", name, LICENCES[licence], **notes)


def debian_packages():
    """The packages of Debian that package/control names, each with how it is related."""
    for field, kind in DEBIAN.items():
        for item in re.search(rf"^{field}: (.*)$", text_of("package/control"), re.MULTILINE)[1].split(", "):
            name = item.split()[0]
            reference = {"referenceCategory": "PACKAGE-MANAGER", "referenceType": "purl",
                         "referenceLocator": f"pkg:deb/debian/{name}"}
            yield kind, package("debian", name, "NOASSERTION", externalRefs=[reference])


def files_of(root):
    """Each file of the package with its checksums."""
    for folder, folders, names in os.walk(root):
        folders[:] = sorted(name for name in folders if (folder, name) != (root, "DEBIAN"))
        for name in sorted(names):
            path = os.path.join(folder, name)
            place = "./" + os.path.relpath(path, root)
            if os.path.islink(path) or name.endswith(".spdx.json"):
                continue
            with open(path, "rb") as file:
                data = file.read()
            yield {
                "SPDXID": identifier("file", place.removeprefix("./")),
                "fileName": place,
                "checksums": [{"algorithm": kind, "checksumValue": hashlib.new(kind, data).hexdigest()}
                              for kind in ("SHA1", "SHA256")],
                "licenseConcluded": "NOASSERTION",
                "copyrightText": "NOASSERTION",
            }


def kit(own, crates):
    """The kit and its parts as packages, and how they are related to the program and the crates."""
    logic = re.search(r"`logic ([0-9a-f]+)`", text_of("README.md"))[1]
    name = re.search(r"\brattle-kit-\d+\b", text_of("NOTICE"))[0]
    whole = package("kit", name, "NONE", versionInfo=f"logic {logic}")
    packages, relations = [whole], [relation(whole["SPDXID"], "BUILD_TOOL_OF", own)]
    for part, item in kit_parts():
        packages.append(item)
        relations += [relation(item["SPDXID"], "CONTAINED_BY", whole["SPDXID"]),
                      relation(own, "STATIC_LINK", item["SPDXID"])]
        relations += [relation(identifier("crate", crate), "DEPENDS_ON", item["SPDXID"])
                      for crate, needs in crates.items() if part in needs]
    return packages, relations


def document(root, version, day):
    files, crates = list(files_of(root)), linked_crates()
    sums = sorted(file["checksums"][0]["checksumValue"] for file in files)
    code = hashlib.sha1("".join(sums).encode()).hexdigest()
    title = f"plateroom-{version}"
    own = package("package", "plateroom", OWN, versionInfo=version, filesAnalyzed=True,
                  packageVerificationCode={"packageVerificationCodeValue": code,
                                           "packageVerificationCodeExcludedFiles":
                                           ["./usr/share/doc/plateroom/plateroom.spdx.json"]},
                  copyrightText=f"Copyright 2026 {AUTHORS}", primaryPackagePurpose="APPLICATION")
    this = own["SPDXID"]
    packages, relations = [own], [relation("SPDXRef-DOCUMENT", "DESCRIBES", this)]
    relations += [relation(this, "CONTAINS", file["SPDXID"]) for file in files]
    for name, needs in crates.items():
        packages.append(package("crate", name, OWN, versionInfo=version, copyrightText=own["copyrightText"]))
        relations.append(relation(this, "STATIC_LINK", identifier("crate", name)))
        relations += [relation(identifier("crate", name), "DEPENDS_ON", identifier("crate", need))
                      for need in needs if need in crates]
    kit_packages, kit_relations = kit(this, crates)
    packages, relations = packages + kit_packages, relations + kit_relations
    for kind, item in debian_packages():
        packages.append(item)
        relations.append(relation(item["SPDXID"], kind, this))
    relations.append(relation(this, "DYNAMIC_LINK", identifier("debian", "libc6")))
    return {
        "spdxVersion": "SPDX-2.3",
        "dataLicense": "CC0-1.0",
        "SPDXID": "SPDXRef-DOCUMENT",
        "name": title,
        "documentNamespace": f"https://spdx.org/spdxdocs/{title}-{uuid.uuid5(uuid.NAMESPACE_URL, code)}",
        "creationInfo": {"created": f"{day}T00:00:00Z",
                         "creators": [f"Organization: {AUTHORS}", f"Tool: package/sbom.py-{version}"]},
        "packages": packages,
        "files": files,
        "relationships": relations,
    }


def main():
    if len(sys.argv) != 4:
        print("usage: package/sbom.py ROOT VERSION DAY", file=sys.stderr)
        return 2
    json.dump(document(*sys.argv[1:]), sys.stdout, indent=1)
    print()
    return 0


if __name__ == "__main__":
    sys.exit(main())
