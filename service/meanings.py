"""The lines of a node, and what each refusal means, for people."""

LINES = """\
content BASE64URL     takes a file
anchor HEIGHT TEXT    appends an entry to the ledger; said twice, it is two entries
rollback N            keeps the first N entries
resolve DID           looks an identifier up
explain DID           says what became of each operation of an identifier
wanted                lists the files that entries name and that are missing
report N              says how entry N and its files are
submit REQUEST        queues a request
flush                 makes a batch of the queue"""

KEEPER_LINES = """\
health                the keeper: entries, last height, missing files, queue, sizes
entry N               the keeper: the height and the text of entry N
chain [N]             the keeper: the hash of the first N entries
verify DID            the keeper: resolve, with the number of entries and of missing files
at N HEIGHT TEXT      the keeper: appends an entry, but only as entry N
batches               the keeper: how many batches were made, of how many requests, and how many of these are on the ledger
batch N SKIP          the keeper: batch N, made now or again, after SKIP requests in batches before
taken REQUEST         the keeper: whether it has queued this very request, and whether that is on the ledger"""

REFUSALS = {
    "line long": "the line has more than 24,000,000 bytes",
    "line command": "the first word is no command",
    "line words": "a word is missing, or there is one too many",
    "line number": "a number is not decimal, has a leading zero, or is above 4,294,967,295",
    "line base64": "the text is not base64url without padding",
    "height": "the height is below that of the last entry",
    "full": "the ledger has 1,048,576 entries, or the queue 10,000 requests",
    "range": "there is no such entry",
    "notJson": "the request is no JSON",
    "notWhole": "a number in the request has a fraction or an exponent, is -0, or is beyond 2^53 - 1",
    "badForm": "the request has not exactly the members of its type",
    "badHash": "a hash text in the request is none",
    "badProof": "the signed text does not open, or it says something else than this request",
    "badDelta": "the delta breaks a rule, or its hash is another one",
    "alreadyQueued": "a request of this identifier waits for a batch already",
    "nothing": "no request waits",
    "held": "the keeper takes no requests until an operator has mended what its log names",
    "keeper": "this socket of the keeper does not take such a line, or it is too long",
}
UNRESOLVED = {
    "badDid": "the text is no identifier of this method",
    "badLongForm": "the text after the suffix is no long form",
    "notCanonical": "the long form is not spelled canonically",
    "suffixDiffers": "the long form belongs to another suffix",
    "notFound": "no entry that the node has read creates it",
}
REQUEST_CAUSES = ("notJson", "notWhole", "badForm", "badHash", "badProof", "badDelta")


def meaning(reply):
    """What a reply means that says no, or None."""
    word, _, cause = reply.partition(" ")
    return {"refused": REFUSALS, "unresolved": UNRESOLVED}.get(word, {}).get(cause)
