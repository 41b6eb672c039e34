-- A dissector for Wireshark: the link between base stations ("carriers") and a DMR Tier III site controller, in versions 1 and 2, and the lines of the
-- controller's console. docs/LINK.md describes the link, and says how to install this file and what it shows.
--
-- The dissector reads octets only: it corrects no bit and decodes no PDU. Wireshark may dissect a packet many times and in any order, so what depends on
-- earlier frames (the version, numbers, faults) is worked out at the first visit and remembered for each frame.

local link = Proto("dmr_link", "DMR site controller, carrier link")
local console = Proto("dmr_console", "DMR site controller, console")

link.prefs.ports = Pref.range("TCP ports of the carriers", "7101-7116", "The ports of the carriers in the site file", 65535)
console.prefs.ports = Pref.range("TCP ports of the console", "7100", "The key console_port of the site file", 65535)

local HELLO, RX, POLL, ACTIVE, BYE, WELCOME, TX, DONE, REFUSED = 0x01, 0x02, 0x03, 0x04, 0x05, 0x81, 0x82, 0x83, 0x84
local NAMES = {
    [HELLO] = "HELLO", [RX] = "RX", [POLL] = "POLL", [ACTIVE] = "ACTIVE", [BYE] = "BYE",
    [WELCOME] = "WELCOME", [TX] = "TX", [DONE] = "DONE", [REFUSED] = "REFUSED",
}
-- The octets of a body in version 1 and in version 2.
local LENGTHS = {
    [HELLO] = {4, 4}, [RX] = {26, 27}, [POLL] = {0, 0}, [ACTIVE] = {1, 1}, [BYE] = {0, 0},
    [WELCOME] = {1, 1}, [TX] = {26, 27}, [DONE] = {0, 0}, [REFUSED] = {1, 1},
}
local CAUSES = {[1] = "BadVersion", [2] = "WrongCarrier"}
local WORD_OCTETS, HIGHEST_VERSION = 25, 2

local f = {
    kind = ProtoField.uint8("dmr_link.type", "Type", base.HEX, NAMES),
    length = ProtoField.uint8("dmr_link.length", "Length of the body", base.DEC),
    version = ProtoField.uint8("dmr_link.version", "Version", base.DEC),
    carrier = ProtoField.uint8("dmr_link.carrier", "Carrier number", base.DEC),
    lpcn = ProtoField.uint16("dmr_link.lpcn", "LPCN", base.DEC),
    number = ProtoField.uint8("dmr_link.number", "Number", base.DEC),
    slot = ProtoField.uint8("dmr_link.slot", "Slot", base.DEC),
    word = ProtoField.bytes("dmr_link.word", "Word (196 bits in 25 octets)"),
    pad = ProtoField.uint8("dmr_link.pad", "Last four bits", base.HEX, nil, 0x0F),
    cause = ProtoField.uint8("dmr_link.cause", "Cause", base.DEC, CAUSES),
    spoken = ProtoField.uint8("dmr_link.spoken_version", "Version of the connection", base.DEC),
    hello_in = ProtoField.framenum("dmr_link.hello_in", "HELLO in packet"),
    again = ProtoField.bool("dmr_link.retransmission", "Retransmission of a burst"),
    first_in = ProtoField.framenum("dmr_link.first_in", "First sent in packet", base.NONE, frametype.RETRANS_PREV),
    expected = ProtoField.uint8("dmr_link.expected_number", "Number that was to come", base.DEC),
    rest = ProtoField.bytes("dmr_link.rest", "Octets that are not frames"),
}
link.fields = f

local e = {
    unknown_type = ProtoExpert.new("dmr_link.unknown_type", "UnknownType: no frame of this side begins with this octet", expert.group.PROTOCOL, expert.severity.ERROR),
    bad_length = ProtoExpert.new("dmr_link.bad_length", "BadLength: not the length of a frame of this type in the connection's version", expert.group.PROTOCOL, expert.severity.ERROR),
    bad_slot = ProtoExpert.new("dmr_link.bad_slot", "BadSlot: a slot is 0 or 1", expert.group.PROTOCOL, expert.severity.ERROR),
    bad_pad = ProtoExpert.new("dmr_link.bad_pad", "BadPad: the last four bits of a word are 0", expert.group.PROTOCOL, expert.severity.ERROR),
    no_hello = ProtoExpert.new("dmr_link.no_hello", "NoHello: the first frame is not HELLO, or the capture began within the connection", expert.group.SEQUENCE, expert.severity.WARN),
    second_hello = ProtoExpert.new("dmr_link.second_hello", "SecondHello: a HELLO that is not the first frame", expert.group.SEQUENCE, expert.severity.ERROR),
    bad_version = ProtoExpert.new("dmr_link.bad_version", "BadVersion: no site serves this version", expert.group.PROTOCOL, expert.severity.ERROR),
    refused = ProtoExpert.new("dmr_link.refused", "The controller refused the HELLO", expert.group.RESPONSE_CODE, expert.severity.WARN),
    again = ProtoExpert.new("dmr_link.retransmitted", "Retransmission: the controller processes the burst once", expert.group.SEQUENCE, expert.severity.NOTE),
    not_next = ProtoExpert.new("dmr_link.not_next", "A TX whose number is not the next one", expert.group.SEQUENCE, expert.severity.WARN),
    other_version = ProtoExpert.new("dmr_link.other_version", "WELCOME names another version than HELLO", expert.group.PROTOCOL, expert.severity.ERROR),
    after_fault = ProtoExpert.new("dmr_link.after_fault", "After a fault, or after BYE: the controller processes nothing more", expert.group.SEQUENCE, expert.severity.NOTE),
}
link.experts = {e.unknown_type, e.bad_length, e.bad_slot, e.bad_pad, e.no_hello, e.second_hello, e.bad_version, e.refused, e.again, e.not_next, e.other_version, e.after_fault}

-- Seconds after which a HELLO from the same address and port belongs to a new connection: after one that is over, and after one that is not.
local SOON, LONG = 1, 60

-- What is known of the newest connection of each carrier's address and port; of each packet, its connection; of each frame, by packet and place, what was
-- found out. The number of the TCP stream would be a better key, but Wireshark does not have it while it loads a file.
local connections, packets, frames = {}, {}, {}
-- The ports that are registered, as sets.
local link_ports, console_ports = {}, {}

function link.init()
    connections, packets, frames = {}, {}, {}
end

local function is_new_connection(connection, pinfo, begins_with_hello)
    local idle = pinfo.abs_ts - connection.time
    return begins_with_hello and idle >= ((connection.over[true] or connection.over[false]) and SOON or LONG)
end

-- The connection of a packet. `begins_with_hello`: whether its octets begin with those of a HELLO.
local function connection_of_packet(pinfo, from_carrier, begins_with_hello)
    if packets[pinfo.number] then
        return packets[pinfo.number]
    end
    local carrier, site = tostring(pinfo.src) .. " " .. pinfo.src_port, tostring(pinfo.dst) .. " " .. pinfo.dst_port
    local key = from_carrier and carrier .. " " .. site or site .. " " .. carrier
    local connection = connections[key]
    if not connection or is_new_connection(connection, pinfo, from_carrier and begins_with_hello) then
        connection = {version = nil, hello_in = nil, next_tx = 0, last_rx = nil, last_rx_in = nil, seen = false, over = {}}
        connections[key] = connection
    end
    connection.time = pinfo.abs_ts
    packets[pinfo.number] = connection
    return connection
end

-- Whether a packet is one to the controller: by its ports, or if neither is known, by its first octet.
local function is_from_carrier(tvb, pinfo)
    if link_ports[pinfo.dst_port] ~= link_ports[pinfo.src_port] then
        return link_ports[pinfo.dst_port] == true
    end
    return tvb(0, 1):uint() < 0x80
end

-- Whether a frame of a type and a length may be on a connection. Until a HELLO was seen the version is not known, and either length may be.
local function has_right_length(connection, kind, length)
    local lengths = LENGTHS[kind]
    if connection.version then
        return length == lengths[connection.version]
    end
    return length == lengths[1] or length == lengths[2]
end

local function is_of_side(kind, from_carrier)
    return NAMES[kind] ~= nil and (kind < 0x80) == from_carrier
end

-- What the sequence of frames says of one that is whole, and how it changes the connection.
local function follow_frame(tvb, pinfo, connection, kind, from_carrier, found)
    local is_first = not connection.seen
    if from_carrier then
        connection.seen = true
        if kind == HELLO and not is_first then
            found.experts[#found.experts + 1] = e.second_hello
            connection.over[from_carrier] = true
        elseif kind == HELLO then
            local version = tvb(2, 1):uint()
            if version < 1 or version > HIGHEST_VERSION then
                found.experts[#found.experts + 1] = e.bad_version
                connection.over[from_carrier] = true
            end
            connection.version = version == 2 and 2 or 1
            connection.hello_in = pinfo.number
        elseif is_first then
            found.experts[#found.experts + 1] = e.no_hello
        end
    end
    if kind == BYE then
        connection.over[from_carrier] = true
    elseif kind == REFUSED then
        found.experts[#found.experts + 1] = e.refused
        connection.over[true] = true
    elseif kind == WELCOME and connection.version and tvb(2, 1):uint() ~= connection.version then
        found.experts[#found.experts + 1] = e.other_version
    end
    local numbered = (kind == RX or kind == TX) and tvb:len() == 2 + LENGTHS[RX][2]
    if numbered and kind == RX then
        local number = tvb(2, 1):uint()
        if number == connection.last_rx then
            found.first_in = connection.last_rx_in
            found.experts[#found.experts + 1] = e.again
        else
            connection.last_rx, connection.last_rx_in = number, pinfo.number
        end
    elseif numbered then
        local number = tvb(2, 1):uint()
        -- without a HELLO the count is not known, and goes on from the first number that is seen
        if connection.hello_in and number ~= connection.next_tx then
            found.expected = connection.next_tx
            found.experts[#found.experts + 1] = e.not_next
        end
        connection.next_tx = (number + 1) % 256
    end
end

-- The slot and the last four bits of a whole frame, which both may be at fault.
local function judge_contents(tvb, connection, kind, from_carrier, found)
    local slot = kind == ACTIVE and 2 or (kind == RX or kind == TX) and tvb:len() - WORD_OCTETS - 1
    if slot and tvb(slot, 1):uint() > 1 then
        found.experts[#found.experts + 1] = e.bad_slot
        connection.over[from_carrier] = true
    elseif slot and kind ~= ACTIVE and tvb(tvb:len() - 1, 1):bitfield(4, 4) ~= 0 then
        found.experts[#found.experts + 1] = e.bad_pad
        connection.over[from_carrier] = true
    end
end

-- Everything about a frame that follows from those before it; worked out once.
local function examine(tvb, pinfo, connection, from_carrier)
    local key = pinfo.number .. ":" .. tvb:offset() .. ":" .. tvb:len()
    if frames[key] then
        return frames[key]
    end
    local kind = tvb(0, 1):uint()
    local found = {experts = {}, from_carrier = from_carrier}
    if connection.over[from_carrier] then
        found.experts[1], found.is_rest = e.after_fault, true
    elseif not is_of_side(kind, from_carrier) then
        found.experts[1], found.is_rest, connection.over[from_carrier] = e.unknown_type, true, true
    elseif tvb:len() < 2 or not has_right_length(connection, kind, tvb(1, 1):uint()) or tvb:len() ~= 2 + tvb(1, 1):uint() then
        found.experts[1], found.is_rest, connection.over[from_carrier] = e.bad_length, true, true
    else
        judge_contents(tvb, connection, kind, from_carrier, found)
        if not connection.over[from_carrier] then
            follow_frame(tvb, pinfo, connection, kind, from_carrier, found)
        end
        found.version, found.hello_in = connection.version, connection.hello_in
    end
    frames[key] = found
    return found
end

local function add_burst(tvb, tree, has_number)
    local at = 2
    if has_number then
        tree:add(f.number, tvb(at, 1))
        at = at + 1
    end
    tree:add(f.slot, tvb(at, 1))
    tree:add(f.word, tvb(at + 1, WORD_OCTETS))
    tree:add(f.pad, tvb(at + WORD_OCTETS, 1))
end

local function add_body(tvb, tree, kind)
    if kind == HELLO then
        tree:add(f.version, tvb(2, 1))
        tree:add(f.carrier, tvb(3, 1))
        tree:add(f.lpcn, tvb(4, 2))
    elseif kind == RX or kind == TX then
        add_burst(tvb, tree, tvb:len() == 2 + LENGTHS[kind][2])
    elseif kind == ACTIVE then
        tree:add(f.slot, tvb(2, 1))
    elseif kind == WELCOME then
        tree:add(f.version, tvb(2, 1))
    elseif kind == REFUSED then
        tree:add(f.cause, tvb(2, 1))
    end
end

-- A frame in a few words, as dmr_decode prints it.
local function summary(tvb, kind)
    local text = NAMES[kind]
    if kind == HELLO then
        return string.format("%s version=%d carrier=%d lpcn=%d", text, tvb(2, 1):uint(), tvb(3, 1):uint(), tvb(4, 2):uint())
    elseif kind == RX or kind == TX then
        local at = tvb:len() - WORD_OCTETS - 1
        local number = at == 3 and string.format(" number=%d", tvb(2, 1):uint()) or ""
        return string.format("%s%s slot=%d", text, number, tvb(at, 1):uint())
    elseif kind == ACTIVE then
        return string.format("%s slot=%d", text, tvb(2, 1):uint())
    elseif kind == WELCOME then
        return string.format("%s version=%d", text, tvb(2, 1):uint())
    elseif kind == REFUSED then
        local cause = tvb(2, 1):uint()
        return string.format("%s reason=%s", text, CAUSES[cause] or cause)
    end
    return text
end

local function add_found(tree, found)
    if found.version then
        tree:add(f.spoken, found.version):set_generated()
    end
    if found.hello_in then
        tree:add(f.hello_in, found.hello_in):set_generated()
    end
    if found.first_in then
        tree:add(f.again, true):set_generated()
        tree:add(f.first_in, found.first_in):set_generated()
    end
    if found.expected then
        tree:add(f.expected, found.expected):set_generated()
    end
    for _, it in ipairs(found.experts) do
        tree:add_proto_expert_info(it)
    end
end

local function add_to_info(pinfo, text)
    pinfo.cols.info:append(pinfo.private.dmr_link_has_text and ", " .. text or text)
    pinfo.private.dmr_link_has_text = "yes"
end

local function dissect_frame(tvb, pinfo, tree)
    local from_carrier = is_from_carrier(tvb, pinfo)
    local found = examine(tvb, pinfo, connection_of_packet(pinfo, from_carrier, false), from_carrier)
    if found.is_rest then
        local branch = tree:add(link, tvb(), string.format("Not a frame, %d octets", tvb:len()))
        branch:add(f.rest, tvb())
        add_found(branch, found)
        add_to_info(pinfo, "not a frame")
        return tvb:len()
    end
    local kind = tvb(0, 1):uint()
    local text = summary(tvb, kind)
    local branch = tree:add(link, tvb(), text)
    branch:add(f.kind, tvb(0, 1))
    branch:add(f.length, tvb(1, 1))
    add_body(tvb, branch, kind)
    add_found(branch, found)
    add_to_info(pinfo, text .. (found.first_in and " [retransmission]" or ""))
    return tvb:len()
end

-- How long a frame is that begins at a place: all that there is, if no frame can follow.
local function frame_length(tvb, pinfo, offset)
    local from_carrier = is_from_carrier(tvb, pinfo)
    local connection = connection_of_packet(pinfo, from_carrier, false)
    local kind, length = tvb(offset, 1):uint(), tvb(offset + 1, 1):uint()
    local lengths = LENGTHS[kind]
    if not pinfo.visited and connection.over[from_carrier] or not is_of_side(kind, from_carrier) or length ~= lengths[1] and length ~= lengths[2] then
        return tvb:len() - offset
    end
    if not pinfo.visited and not has_right_length(connection, kind, length) then
        return tvb:len() - offset
    end
    -- at a later visit the connection is in its last state; what was found at the first one says whether these octets were a frame
    local known = frames[pinfo.number .. ":" .. (tvb:offset() + offset) .. ":" .. (tvb:len() - offset)]
    return known and known.is_rest and tvb:len() - offset or 2 + length
end

function link.dissector(tvb, pinfo, tree)
    pinfo.cols.protocol = "DMR-LINK"
    connection_of_packet(pinfo, is_from_carrier(tvb, pinfo), tvb(0, 1):uint() == HELLO)
    -- TCP calls this twice for a packet that ends one frame and has others
    if not pinfo.private.dmr_link_has_text then
        pinfo.cols.info:clear()
    end
    if tvb:len() == 1 and not is_of_side(tvb(0, 1):uint(), is_from_carrier(tvb, pinfo)) then
        return dissect_frame(tvb, pinfo, tree)
    end
    dissect_tcp_pdus(tvb, tree, 2, frame_length, dissect_frame)
    return tvb:len()
end

local line_field = ProtoField.string("dmr_console.line", "Line")
local asked_field = ProtoField.bool("dmr_console.request", "From the operator")
console.fields = {line_field, asked_field}

-- The place of the next LF from a place on; nil if there is none.
local function next_line_end(tvb, from)
    for at = from, tvb:len() - 1 do
        if tvb(at, 1):uint() == 10 then
            return at
        end
    end
    return nil
end

function console.dissector(tvb, pinfo, tree)
    pinfo.cols.protocol = "DMR-CONSOLE"
    local asked = console_ports[pinfo.dst_port] == true
    local branch = tree:add(console, tvb(), asked and "Operator's lines" or "Replies")
    branch:add(asked_field, asked):set_generated()
    local at, texts = 0, {}
    while at < tvb:len() do
        local ends = next_line_end(tvb, at)
        if not ends then
            pinfo.desegment_offset, pinfo.desegment_len = at, DESEGMENT_ONE_MORE_SEGMENT
            break
        end
        local text = ends > at and tvb(at, ends - at):string() or ""
        branch:add(line_field, tvb(at, ends - at + 1), text)
        texts[#texts + 1] = text
        at = ends + 1
    end
    if #texts > 0 then
        pinfo.cols.info = (asked and "> " or "") .. table.concat(texts, " | ")
    end
    return tvb:len()
end

-- The ports of a range such as "7101-7103,7110", as a set.
local function set_of_range(text)
    local set = {}
    for first, last in tostring(text):gmatch("(%d+)%-?(%d*)") do
        for port = tonumber(first), tonumber(last) or tonumber(first) do
            set[port] = true
        end
    end
    return set
end

local function register_ports(protocol, before, text)
    local tcp_ports = DissectorTable.get("tcp.port")
    for port in pairs(before) do
        tcp_ports:remove(port, protocol)
    end
    local set = set_of_range(text)
    for port in pairs(set) do
        tcp_ports:add(port, protocol)
    end
    return set
end

local function read_link_ports()
    link_ports = register_ports(link, link_ports, link.prefs.ports)
end

local function read_console_ports()
    console_ports = register_ports(console, console_ports, console.prefs.ports)
end

link.prefs_changed = read_link_ports
console.prefs_changed = read_console_ports
read_link_ports()
read_console_ports()
