"""decode.py IN OUT: decodes a byte stream (Annex B) and writes its pictures as I420, each as soon as it goes out. Refusals go to standard
error. Status: 0 all went well, 1 something was refused."""

import sys

import avcdec


def main() -> int:
    _, source, target = sys.argv
    refused = False
    with open(source, "rb") as stream, open(target, "wb", buffering=262_144) as out:
        for event in avcdec.decode(stream, lend=True):
            if isinstance(event, avcdec.Picture):
                for plane in event.planes:
                    out.writelines(plane.rows())
            else:
                print(event, file=sys.stderr)
                refused = True
    return 1 if refused else 0


sys.exit(main())
