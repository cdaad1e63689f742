"""report_page.py: prints docs/REPORT.md, the sample capture record by record, and its report with a word on each line."""

from report import DEFAULT_WORDS, read_setting, report_lines
from sample_capture import RECORDS, sample_capture

HEAD = """# A report over a capture

`PROGRAM=report ./run` reads the sample capture `docs/samples/report`; `PROGRAM=report ./run FILE RADIO-PORT IPS-PORT DATALINK` reads one of your own (the three words together, or none: 8580, 8581, 7). A capture is a classic pcap file (microseconds, link type Ethernet, either byte order), as `tcpdump -w` writes it; `editcap -F pcap` makes one of a pcapng file.

A datagram to the radio's port is a message of the IPS end, one to the IPS port a message of the radio. Packets and bytes count the accepted data messages of both ends (bytes: Packet Data's length), windows the Flow Windows with the field in accepted radio control messages. A count at 18446744073709551615 stays there. Addresses, source ports, times and checksums aren't looked at.

A file with another head is answered by the first line and `refused 25`; where a record is cut off or over 65,536 bytes, the report so far is printed, with a last line `refused 26`. Where the file can't be read any further, it is as if it were cut off there: `refused 25` within its first 24 bytes, else `refused 26`, between two records too. A line that can't be written ends the program, and standard error says so.

## The sample's records

| Record | What it is | Counted as |
|---|---|---|"""
MIDDLE = """
Every record is counted in `records` too. Records 11 to 16 are skipped for the reasons that `ethernet` tells apart.

## Its report

| Line | |
|---|---|"""
WORDS = {
    "count value": "the header",
    "records": "all records of the file",
    "skipped": "those from which no datagram is taken: records 11 to 16",
    "ips": "datagrams to the radio's port: records 1, 4, 5 and 8",
    "radio": "datagrams to the IPS port: records 2, 3, 6, 7, 9 and 10",
    "refusal 1": "a datagram over 65,507 bytes, which no record of Ethernet can hold: always 0",
    "refusal 2": "header cut short or not allowed: record 9",
    "refusal 3": "an option runs past the end",
    "refusal 4": "an option's length isn't listed",
    "refusal 5": "a Channel ID of 255, or a value without a meaning",
    "refusal 6": "an option that this plane and direction doesn't list: record 10",
    "refusal 7": "an option repeated",
    "refusal 8": "an option after Packet Data",
    "refusal 9": "a required option is missing",
    "refusal 10": "a Flow Sequence without its Channel Identifier: record 8",
    "refusal 11": "another Datalink ID: record 7",
    "channel 0 packets": "record 5, which names no channel",
    "channel 0 bytes": "the bytes of its packet",
    "channel 0 windows": "record 2",
    "channel 3 packets": "records 4 and 6, one of each end",
    "channel 3 bytes": "the bytes of their packets, 40 and 46",
    "channel 3 windows": "record 3; the Flow Window of record 2 has no field",
}


def word_on(line):
    """The word on a line of the report."""
    name = line if line in WORDS else line.rsplit(" ", 1)[0]
    return WORDS.get(name, f"nothing on channel {name.split()[1]}" if name.startswith("channel") else "")


def main():
    """Print the page."""
    print(HEAD)
    for number, (what, counted, _, _) in enumerate(RECORDS, 1):
        print(f"| {number} | {what} | {counted} |")
    print(MIDDLE)
    for line in report_lines(read_setting(DEFAULT_WORDS), sample_capture()):
        print(f"| `{line}` | {word_on(line)} |")


if __name__ == "__main__":
    main()
