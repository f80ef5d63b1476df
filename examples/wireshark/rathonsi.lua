-- Secured I-PDUs in Wireshark and tshark: payload, freshness, authenticator, and what `watch` says of each frame.
--
--   tshark -X lua_script:rathonsi.lua -o rathonsi.map:bench.map -o rathonsi.verdicts:watch.jsonl -r bus.pcapng
--
-- The map is that of `watch`. The verdicts are what `watch --json` printed over a log of the capture in which line 12 is
-- frame 12: `capture2log.sh bus.pcapng >bus.log; watch --json bench.map bus.log >watch.jsonl`. Without verdicts it shows
-- the parts alone. It checks no authenticator itself. In Wireshark put the file into the folder of personal Lua plugins,
-- and the two names into the preferences of the protocol.

local secured = Proto("rathonsi", "Secured I-PDU (SecOC profile 1)")
local fields = {
    line = ProtoField.string("rathonsi.line", "Line of the map"),
    data_id = ProtoField.uint16("rathonsi.data_id", "Data ID", base.HEX),
    payload = ProtoField.bytes("rathonsi.payload", "Payload"),
    low = ProtoField.uint8("rathonsi.freshness_low", "Freshness, low byte", base.HEX),
    authenticator = ProtoField.bytes("rathonsi.authenticator", "Authenticator"),
    verdict = ProtoField.string("rathonsi.verdict", "Verdict"),
    freshness = ProtoField.string("rathonsi.freshness", "Freshness that was accepted"),
}
secured.fields = fields
local refused = ProtoExpert.new("rathonsi.refused", "The frame is refused", expert.group.SECURITY, expert.severity.ERROR)
secured.experts = { refused }
secured.prefs.map = Pref.string("Map", "", "The map of watch: CANID ID KEY FRESH LEN ..")
secured.prefs.verdicts = Pref.string("Verdicts", "", "What `watch --json` printed")

local can_id, can_len = Field.new("can.id"), Field.new("can.len")
local extended, remote, err = Field.new("can.flags.xtd"), Field.new("can.flags.rtr"), Field.new("can.flags.err")
local interface = Field.new("frame.interface_name")
local lines, verdicts = {}, {}

-- the lines of the file of this name; none without a name
local function lines_of(name)
    if name == "" then
        return function() end
    end
    local file, why = io.open(name, "r")
    if file == nil then
        error("rathonsi: " .. why)
    end
    return file:lines()
end

-- CANID, Data ID, length of the payload, channel and name of each line of the map
local function read_map(name)
    lines = {}
    for text in lines_of(name) do
        local words = {}
        for word in text:gsub("\r$", ""):gmatch("[^ \t]+") do
            if word:sub(1, 1) == "#" then
                break
            end
            words[#words + 1] = word
        end
        if #words >= 5 then
            local line = { can = words[1]:lower(), data_id = tonumber(words[2], 16), length = tonumber(words[5]) }
            line.name = line.can
            for at = 6, #words do
                line.name = words[at]:match("^name=(.*)") or line.name
            end
            local channel = words[7]
            if channel and channel ~= "-" and channel ~= "optional" and words[6]:match("^%d+$") and not channel:match("^name=") then
                line.channel = channel
            end
            lines[#lines + 1] = line
        end
    end
end

-- the verdict on each frame, and the freshness if it is accepted
local function read_verdicts(name)
    verdicts = {}
    for text in lines_of(name) do
        local frame = text:match('"frame":(%d+)')
        if frame then
            verdicts[tonumber(frame)] = { text = text:match('"verdict":"([^"]+)"'), freshness = text:match('"freshness":"(%x+)"') }
        end
    end
end

function secured.init()
    read_map(secured.prefs.map)
    read_verdicts(secured.prefs.verdicts)
end

-- the line of the map that hears a frame; nil if none does
local function line_of(id, on)
    for _, line in ipairs(lines) do
        if line.can == id and (line.channel == nil or on == nil or line.channel == on) then
            return line
        end
    end
end

local function is_set(field)
    local it = field()
    return it ~= nil and it.value
end

function secured.dissector(buffer, packet, tree)
    local id, length = can_id(), can_len()
    if id == nil or length == nil or is_set(remote) or is_set(err) then
        return
    end
    local on = interface()
    local digits = is_set(extended) and string.format("%08x", id.value) or string.format("%03x", id.value)
    local line = line_of(digits, on and on.value)
    if line == nil then
        return
    end
    -- the data stands four bytes after the length, in classic CAN and in CAN FD
    local data = buffer(length.offset + 4, length.value)
    local part = tree:add(secured, data)
    part:add(fields.line, line.name):set_generated()
    part:add(fields.data_id, line.data_id):set_generated()
    if data:len() >= line.length + 4 then
        part:add(fields.payload, data(0, line.length))
        part:add(fields.low, data(line.length, 1))
        part:add(fields.authenticator, data(line.length + 1, 3))
    end
    local verdict = verdicts[packet.number]
    if verdict == nil then
        return
    end
    local shown = part:add(fields.verdict, verdict.text):set_generated()
    if verdict.freshness then
        part:add(fields.freshness, verdict.freshness):set_generated()
    else
        shown:add_proto_expert_info(refused, verdict.text)
        packet.cols.info:append(" [" .. verdict.text .. "]")
    end
end

register_postdissector(secured)
