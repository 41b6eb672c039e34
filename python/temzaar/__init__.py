"""Tools for a site of the controller: they check its site file, watch it, record it, draw it, and play its carriers and radios.
They also judge the clients of its base stations.

The package reads and writes the formats of `docs/FORMATS.md`. It is written from the documents alone, apart from the controller's code, so a
comparison of the two means something. One module per subject, lowest first:

    printable   text that came from outside, as a terminal or a spreadsheet may show it, and tables of it
    version     the version of this program
    faults      the fault that a tool reports in a line, and files that are read with a limit
    names       the names of radios, talkgroups and carriers, and how one is shown next to its number
    code        the block code of a burst, and the check of ten octets
    pdus        the PDUs: one table of layouts, read in both directions
    frames      the frames of the link in both versions: one cutter for both directions
    sitefile    the site file, as far as the tools need it
    sitekeys    the keys of the site file: the tables of docs/SITE_FILE.md
    sitetext    the text of a site file: its values, and the lines of its keys
    sitefigures  what a site file amounts to: times in seconds, and counts
    siterisks   what is risky in a site file
    namerisks   what is risky in a file of names
    erlang      how many slots a site needs
    sitereport  what a check of a site file prints
    script      scripts and printed replays
    console     an operator's console
    picture     a picture of a served site, made of several answers of its console
    process     a controller that a tool starts, or replays a script with; other programs that it starts
    relay       the relay between carriers and a controller, which cuts, joins and withholds
    entries     the journal of a site: its calls, how long they waited, and why they ended
    callsheet   the list of calls as text, CSV and JSON
    clock       ticks and clock times, and windows of them
    drawing     the picture of a session
    moments     dates and times that people write, and times before now
    records     the controller's file of records
    archive     a file of records for each month
    recordgaps  the times of which a file of records has nothing
    recordsheet the calls of a file of records as a table, CSV and JSON
    traffic     the figures of a period of a file of records: how busy the site was
    report      what a report says of them, as text, CSV and JSON
    reportpage  the report as a page
    recordsession a period of a file of records as a session that can be drawn
    player      the play of a site's carriers and radios
    trouble     the same with connections that break, stall and misbehave
    conformance the table of docs/LINK.md by which a base station's client is judged
    hub         a service that holds the console and serves many who ask
    hubconsole  a connection to the hub, and what its lines may be completed to
    plannedstop what a planned stop of the controller waits for, and what it loses
    cli         the commands: siteview, timeline, callbook, report, archive, carriers, conform, check, restart, hub, console
"""
