#!/usr/bin/env python3
"""Spells what tools/respell.py passed over: constructors that are declared several to a line, and two names with a capital behind
an underscore. usage: tools/respell_more.py, once, at the top, after tools/respell.py."""
import os
import re

NAMES = """oldOthers newOthers newRints oldRints receiverPersists timer_aOf timer_aCall mayReceive receiverReads damagesForward
senderPersists damagesBack senderActs receiverRestores receiverWrites senderReads senderWrites dropsVerdicts timerRuns senderCrashes
dropsReports receiverStores persistsAsOne offersInOrder dropsNamed senderRestores dropsReplies writesInOrder reportsPersisted
reportsFailed senderPersistsFirst losesReply senderForgets senderDiscards receiverDiscards receiverDrops lineLater verdictLater
damagesReply arrivesUnstored persistsNumber bringsLateRequest persistsTransaction landsLate revertsTo bringsLate asBad masterEot
repeatsReply disturbsReply asEnquiry linkReads linkDamagesForward linkDamagesBack asBareEnq enqWithoutNak duplicateRint
rintAfterEnqOnly damagedNoted closedReceiver linkRestores endCrashes opensDriver endsDriver resetsDriver timerDriver submitsDriver
linkOpens linkEnds linkResets linkTimer linkSubmits linkReceiverReads linkReceiverRestores linkReceiverCrashes""".split()
ROWS = {n: re.sub(r"(?<=[a-z0-9])([A-Z])", lambda m: "_" + m[1].lower(), n).replace("timer_aof", "timer_a_of") for n in NAMES}

# Names that would fall together with one of these: a lemma of link, and a run of station_link.
ROWS |= {"sender_acts": "sender_acts_lem", "duplicate_rint": "duplicate_rint_run"}

for root, dirs, files in os.walk("crates"):
    dirs[:] = sorted(d for d in dirs if d != "out")
    for f in sorted(files):
        if f.endswith((".antt", ".rt")):
            path = os.path.join(root, f)
            with open(path, encoding="utf-8") as it:
                text = it.read()
            new = re.sub(r"(?<![\w-])[a-z]\w*", lambda m: ROWS.get(m[0], m[0]), text)
            if new != text:
                with open(path, "w", encoding="utf-8") as it:
                    it.write(new)
