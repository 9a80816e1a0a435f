"""Four journals of one transaction, with each form of the checksums, whose numbers e2fsck and the kernel take; for
checksums.py. Block 1,024 bytes, 33 blocks, UUID 000102..0f; transaction 2 revokes home 7, and has an escaped copy for
home 5 that begins with the journal's magic and 01020304; its commit time is 0."""
import struct

from checksums_reference import ONES, SUM_AT, Form, Log, crc32c, u32
from jbref_write import UUID, commit_block, lay, revoke_block, run_blocks

BS, HOMES = 1024, 8
CONTENT = bytes.fromhex("c03b399801020304") + bytes(BS - 8)
SEED, CHECK = 0x2636F714, (b"123456789", 0xE3069283)
LINE = "transactions 1 copies 1 revoked 0 next 4"
# whether 64bit, version: the tag in words, tails of the revoke and descriptor block, sum of the commit block and of the
# superblock, before and after the recovery
KNOWN = {
    (False, 3): ("00000005 00000009 00000000 408b7374", 0x863E8DBD, 0x4B753EA6, 0x240377D2, 0x2557ADDB, 0x80527EBC),
    (True, 3): ("00000005 00000009 00000000 408b7374", 0xC4410AEF, 0x4B753EA6, 0x240377D2, 0x1CF2358E, 0xB9F7E6E9),
    (False, 2): ("00000005 7374 0009 0000", 0x863E8DBD, 0xC5C9ED73, 0x240377D2, 0x0B0178D6, 0xAE04ABB1),
    (True, 2): ("00000005 7374 0009 00000000 0000", 0xC4410AEF, 0x2FB7103D, 0x240377D2, 0x32A4E083, 0x97A133E4),
}


def journal(wide, version):
    form = Form(wide, version, UUID)
    log = [revoke_block(2, [7], BS, form)] + run_blocks(2, [(5, CONTENT)], BS, UUID, form)
    return lay(BS, 33, 2, 1, log + [commit_block(2, BS, form, 0)], form)


def told(data, version):
    """The numbers of such a journal."""
    log = Log(data)
    revoke, descriptor, commit = (data[at * BS:(at + 1) * BS] for at in (1, 2, 4))
    tag = descriptor[12:12 + log.form.tag].hex()
    widths = [8, 8, 8, 8] if version == 3 else [8, 4, 4] + ([8, 4] if log.form.wide else [4])
    words = [tag[sum(widths[:i]):sum(widths[:i + 1])] for i in range(len(widths))]
    return (" ".join(words), u32(revoke, BS - 4), u32(descriptor, BS - 4), u32(commit, 16), u32(data, SUM_AT),
            u32(log.cleaned(), SUM_AT))


def faults():
    """Where the reference differs from the numbers that are known."""
    found = [] if crc32c(ONES, CHECK[0]) ^ ONES == CHECK[1] and crc32c(ONES, UUID) == SEED else ["the check value"]
    for (wide, version), known in KNOWN.items():
        data = journal(wide, version)
        mine, recovered = told(data, version), Log(data).recovered(HOMES)
        if mine != known or recovered != ({5: CONTENT}, LINE):
            found.append("wide %s version %d: %s" % (wide, version, mine))
    return found


def tried(jb):
    """The same by JB, of the journal with eight home blocks behind it; how many are wrong."""
    wrong = faults()
    for (wide, version), known in KNOWN.items():
        data = journal(wide, version)
        with open("vector.img", "wb") as file:
            file.write(data + bytes(HOMES * BS))
        ended = jb.run("recover", "--checksums", "vector.img")
        with open("vector.img", "rb") as file:
            left = file.read()
        wanted = bytearray(data + bytes(HOMES * BS))
        struct.pack_into(">II", wanted, 0x18, 3, 0)
        struct.pack_into(">I", wanted, SUM_AT, known[-1])
        wanted[(33 + 5) * BS:(33 + 6) * BS] = CONTENT
        if ended != (0, LINE, "") or left != bytes(wanted):
            wrong.append("wide %s version %d: %s %s %s" % (wide, version, *ended))
    print("vectors: 4 journals: %s" % ("WRONG: " + "; ".join(wrong) if wrong else "as they are known"), flush=True)
    return len(wrong)
