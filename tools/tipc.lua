-- Dissects the frames of this project in Wireshark and tshark: the datagrams of 127.0.0.1 between the ports 40001 and
-- 40096, which a live run over UDP sends and tools/capture.py writes.
--
--   tshark -X lua_script:tools/tipc.lua -r frames.pcapng
--   tshark -X lua_script:tools/tipc.lua -i lo            beside ./tipc_sim live udp 2 2 10
--
-- A field has the name that `tipc_sim dissect` gives it, behind `tipc2.` and with `_` for `-`: `tipc2.user == 7`,
-- `tipc2.old_epoch`. What a frame is stands in the Info column. docs/FORMATS.md has the formats, of which this file is a
-- second reading: tools/check_capture.py compares the two.

local tipc = Proto("tipc2", "TIPC 2 frame")

local BASE_PORT, PORTS_OF_BEARER, MOST_NODES = 40000, 64, 32
local ENVELOPE = 16

-- ---- The table of fields. One is a name, a word and its high and its low bit; or a name, a word and a kind: "node" is an
-- address, "long" a number of 64 bits that begins with the word. A name alone is a field that is always 0.

local START = {
    { "user", 0, 28, 25 }, { "words", 0, 24, 21 }, { "non-sequenced", 0, 20, 20 }, { "destination-droppable", 0, 19, 19 },
    { "source-droppable", 0, 18, 18 }, { "size", 0, 16, 0 }, { "type", 1, 31, 29 },
}
local BROADCAST = { "broadcast-ack", 1, 15, 0 }
local PREVIOUS = { "previous", 3, "node" }
local NUMBERS = { { "ack", 2, 31, 16 }, { "sequence", 2, 15, 0 }, PREVIOUS }
local MESSAGE = { { "code", 1, 28, 25 }, { "reroute", 1, 24, 21 }, { "scope", 1, 20, 19 }, { "flow" }, BROADCAST }
local PORTS = { { "origin-port", 4, 31, 0 }, { "destination-port", 5, 31, 0 } }
local NODES = { { "origin-node", 6, "node" }, { "destination-node", 7, "node" } }
local STATE = {
    { "next", 4, 31, 16 }, { "broadcast-next", 4, 15, 0 }, { "broadcast-start", 5, 31, 16 }, { "broadcast-gap", 5, 15, 0 },
    { "destination-node", 7, "node" }, { "probe", 8, 0, 0 }, { "in-step", 8, 1, 1 }, { "priority", 8, 6, 2 },
}
local RESET = { { "destination-node", 7, "node" }, { "priority", 8, 6, 2 }, { "contact", 10, "long" }, { "peer-contact", 12, "long" } }
local TUNNEL = { { "count", 4, 31, 16 }, { "inner-number", 4, 15, 0 }, { "old-bearer", 5, 0, 0 }, { "old-epoch", 10, "long" } }

local function joined(...)
    local all = {}
    for _, part in ipairs({ ... }) do
        for _, field in ipairs(part) do all[#all + 1] = field end
    end
    return all
end

-- A header: how many words it has, its name, its fields, and the fewest and the most bytes that follow them.
local function header(words, name, fields, least, most)
    return { words = words, name = name, fields = joined(START, fields), least = least, most = most }
end
local function payload(words, name, ...)
    return header(words, name, joined(MESSAGE, NUMBERS, PORTS, ...), 0, 66000)
end

local PAYLOAD = {
    [0] = payload(6, "connected"),
    payload(11, "multicast", NODES, { { "name-type", 8, 31, 0 }, { "lower", 9, 31, 0 }, { "upper", 10, 31, 0 } }),
    payload(10, "named", NODES, { { "name-type", 8, 31, 0 }, { "lower", 9, 31, 0 } }),
    payload(8, "direct", NODES),
}
local FRAGMENT = joined({ BROADCAST }, NUMBERS, { { "fragment", 4, 15, 0 }, { "flow" } })
local NAMES = joined({ BROADCAST }, NUMBERS)
local CHANGEOVER = joined({ BROADCAST }, NUMBERS, TUNNEL)
local FOUND = { PREVIOUS, { "network", 4, 31, 0 } }

-- By user and type.
local HEADERS = {
    [0] = PAYLOAD, PAYLOAD, PAYLOAD, PAYLOAD,
    [6] = { [0] = header(10, "bundle", joined({ BROADCAST }, NUMBERS, { { "count", 4, 31, 16 } }), 0, math.huge) },
    [7] = {
        [0] = header(10, "STATE", joined({ { "gap", 1, 28, 16 }, BROADCAST, { "ack", 2, 31, 16 }, PREVIOUS }, STATE), 0, 0),
        header(10, "RESET", joined({ PREVIOUS }, RESET), 0, 0),
        header(10, "ACTIVATE", joined({ PREVIOUS }, RESET), 0, 0),
    },
    [10] = { [0] = header(10, "duplicate", CHANGEOVER, 0, math.huge), header(10, "original", CHANGEOVER, 0, math.huge) },
    [11] = { [0] = header(10, "publication", NAMES, 20, 1400), header(10, "withdrawal", NAMES, 20, 1400) },
    [12] = {
        [0] = header(10, "first fragment", FRAGMENT, 1, 1412),
        header(10, "fragment", FRAGMENT, 1, 1412),
        header(10, "last fragment", FRAGMENT, 1, 1412),
    },
    [13] = { [0] = header(10, "request", FOUND, 0, 0), header(10, "response", FOUND, 0, 0) },
}
local IMPORTANCES = { [0] = "low", "medium", "high", "critical" }
local MAY_STAND_INSIDE = { [0] = true, true, true, true, [6] = true, [11] = true, [12] = true }

-- ---- Wireshark's fields

local shown = {}
local function declare(name, kind)
    if not shown[name] then shown[name] = ProtoField[kind]("tipc2." .. name:gsub("-", "_"), name) end
end

declare("envelope-first", "uint64")
declare("envelope-second", "uint64")
for _, name in ipairs({ "item", "inner", "fault" }) do declare(name, "string") end
declare("rest", "bytes")
for _, types in pairs(HEADERS) do
    for _, form in pairs(types) do
        for _, field in ipairs(form.fields) do
            declare(field[1], field[3] == "long" and "uint64" or field[3] == "node" and "string" or "uint32")
        end
    end
end
do
    local all = {}
    for _, field in pairs(shown) do all[#all + 1] = field end
    tipc.fields = all
end

-- ---- Bits

local function word(data, index) return data(4 * index, 4):uint() end
local function bits(data, index, high, low) return data(4 * index, 4):bitfield(31 - high, high - low + 1) end

-- The runs of bits of a header's words that no field has, but for the version: they must be zero.
local function unused(form)
    local runs = {}
    for index = 0, form.words - 1 do
        local used = {}
        for _, field in ipairs(form.fields) do
            local high, low = field[3], field[4]
            if high == "node" then high, low = 31, 0 end
            if field[2] == index and high ~= "long" then
                for place = low, high do used[place] = true end
            end
        end
        if index == 0 then used[31], used[30], used[29] = true, true, true end
        local low = nil
        for place = 0, 32 do
            if place < 32 and not used[place] then
                low = low or place
            elseif low then
                runs[#runs + 1] = { index, place - 1, low }
                low = nil
            end
        end
    end
    return runs
end
for _, types in pairs(HEADERS) do
    for _, form in pairs(types) do
        if not form.unused then form.unused = unused(form) end
    end
end

-- How many bytes stand before the rest.
local function size_of(form)
    local size = 4 * form.words
    for _, field in ipairs(form.fields) do
        if field[3] == "long" then size = math.max(size, 4 * field[2] + 8) end
    end
    return size
end

-- ---- Packets

-- Whether the zeros, the counts and the bytes behind the header are as the user asks.
local function is_clean(data, form, user)
    local rest = data:len() - size_of(form)
    if rest < form.least or rest > form.most then return false end
    for _, run in ipairs(form.unused) do
        if bits(data, run[1], run[2], run[3]) ~= 0 then return false end
    end
    if bits(data, 0, 20, 20) ~= ((user == 7 or user == 13) and 1 or 0) then return false end
    if user <= 3 then return bits(data, 1, 28, 25) <= 5 end
    if bits(data, 0, 19, 18) ~= 0 then return false end
    if user == 6 then return bits(data, 4, 31, 16) >= 2 and rest % 4 == 0 end
    if user == 10 then return bits(data, 4, 31, 16) > 0 or bits(data, 4, 15, 0) == 0 and rest == 0 end
    if user == 11 then return rest % 20 == 0 end
    return user ~= 12 or bits(data, 4, 15, 0) >= 1
end

-- The fault of bytes that are no packet, or the header of the packet that they are.
local function read(data)
    local length = data:len()
    if length < 24 then return "1 Short" end
    if bits(data, 0, 31, 29) ~= 2 then return "2 Version" end
    local words, user, kind = bits(data, 0, 24, 21), bits(data, 0, 28, 25), bits(data, 1, 31, 29)
    if not (words == 6 or words == 8 or words == 10 or words == 11) or 4 * words > length then return "3 HeaderSize" end
    if bits(data, 0, 16, 0) ~= length or user <= 3 and length - 4 * words > 66000 then return "4 Size" end
    if not HEADERS[user] then return "5 User" end
    local form = HEADERS[user][kind]
    if not form or form.words ~= words then return "6 Type" end
    if not is_clean(data, form, user) then return "7 Reserved" end
    return nil, form
end

local function address(value)
    return string.format("%d.%d.%d", math.floor(value / 16777216), math.floor(value / 4096) % 4096, value % 4096)
end

local function put(data, tree, field)
    local name, index, kind, low = field[1], field[2], field[3], field[4]
    if not index then
        tree:add(shown[name], data(4, 4), 0)
    elseif kind == "long" then
        tree:add(shown[name], data(4 * index, 8))
    elseif kind == "node" then
        tree:add(shown[name], data(4 * index, 4), address(word(data, index)))
    else
        tree:add(shown[name], data(4 * index, 4), bits(data, index, kind, low))
    end
end

local put_packet

-- What a tunnel packet carries; answers what it is called.
local function put_inner(data, tree)
    if data:len() == 48 then
        tree:add(shown["inner"], data(40, 8), "none")
        return "nothing"
    end
    local inner = data(48):tvb()
    local fault, form = read(inner)
    local number = bits(data, 4, 15, 0)
    if fault or not MAY_STAND_INSIDE[bits(inner, 0, 28, 25)] or bits(inner, 2, 15, 0) ~= number then
        tree:add(shown["inner"], data(48), "bad")
        return "bytes that are no packet"
    end
    return put_packet(inner, tree:add(shown["inner"], data(48), tostring(inner:len())), form)
end

local function put_items(data, tree)
    for first = 10, data:len() / 4 - 5, 5 do
        local words = {}
        for place = 0, 4 do words[place + 1] = string.format("%d", word(data, first + place)) end
        tree:add(shown["item"], data(4 * first, 20), table.concat(words, ","))
    end
end

-- What a packet is called: with its number where it has one, and the most telling of its fields.
local function title(data, form, user)
    local name = form.name
    if user <= 3 then
        return string.format("%s %s %d, port %d to %d, %d bytes", IMPORTANCES[user], name, bits(data, 2, 15, 0), word(data, 4), word(data, 5),
            data:len() - size_of(form))
    elseif name == "STATE" then
        return string.format("STATE ack %d, gap %d, next %d%s", bits(data, 2, 31, 16), bits(data, 1, 28, 16), bits(data, 4, 31, 16),
            bits(data, 8, 0, 0) == 1 and ", probe" or "")
    elseif user == 7 or user == 13 then
        return name
    elseif user == 6 then
        return string.format("bundle %d of %d packets", bits(data, 2, 15, 0), bits(data, 4, 31, 16))
    elseif user == 12 then
        return string.format("%s %d, number %d in its message", name, bits(data, 2, 15, 0), bits(data, 4, 15, 0))
    end
    return string.format("%s %d", name, bits(data, 2, 15, 0))
end

-- A packet with all that is in it; answers what it is called.
function put_packet(data, tree, form)
    local user = bits(data, 0, 28, 25)
    for _, field in ipairs(form.fields) do put(data, tree, field) end
    local called = title(data, form, user)
    if user == 10 then
        return called .. " of " .. put_inner(data, tree)
    elseif user == 11 then
        put_items(data, tree)
    elseif data:len() > size_of(form) then
        tree:add(shown["rest"], data(size_of(form)))
    end
    return called
end

-- ---- Frames

-- The node and the bearer of a port.
local function stands_at(port)
    return (port - BASE_PORT) % PORTS_OF_BEARER, math.floor((port - BASE_PORT) / PORTS_OF_BEARER)
end

function tipc.dissector(data, info, root)
    local tree = root:add(tipc, data())
    info.cols.protocol = "TIPC2"
    if data:len() < ENVELOPE then
        tree:add(shown["fault"], data(), "envelope")
        info.cols.info = "no envelope"
        return
    end
    tree:add(shown["envelope-first"], data(0, 8))
    tree:add(shown["envelope-second"], data(8, 8))
    local fault, form = "1 Short", nil
    if data:len() > ENVELOPE then fault, form = read(data(ENVELOPE):tvb()) end
    if fault then
        tree:add(shown["fault"], data(), fault)
        info.cols.info = "fault " .. fault
        return
    end
    local from, bearer = stands_at(info.src_port)
    local called = put_packet(data(ENVELOPE):tvb(), tree, form)
    info.cols.info = string.format("%d to %d on bearer %d: %s", from, (stands_at(info.dst_port)), bearer, called)
end

local ports = DissectorTable.get("udp.port")
for bearer = 0, 1 do
    for node = 1, MOST_NODES do ports:add(BASE_PORT + PORTS_OF_BEARER * bearer + node, tipc) end
end
