-- A dissector for Wireshark and tshark: NT/N Rest Octets of NOTIFICATION/NCH, and NOTIFICATION/FACCH, field by field, with the calls in the info column.
--
--     tshark -X lua_script:asternhaken.lua -r day.pcap        or copy the file into Wireshark's folder of personal plugins
--
-- tests/field.sh holds it to `asternhaken decode` on all vectors. Wireshark's own lines stay as they are: this is put behind them.

local asternhaken = Proto("asternhaken", "Notification of group calls")

local fields = {
    trace = ProtoField.string("asternhaken.trace", "Fields, each bit:width:name:value, values in hexadecimal"),
    field = ProtoField.string("asternhaken.field", "Field"),
    channel = ProtoField.string("asternhaken.channel", "Channel"),
    reference = ProtoField.uint32("asternhaken.call_reference", "Call reference"),
    service = ProtoField.string("asternhaken.service", "Service"),
    refusal = ProtoField.uint8("asternhaken.refusal", "Refusal"),
    refused_bit = ProtoField.uint32("asternhaken.refused_bit", "Refused at bit"),
    read_to = ProtoField.uint32("asternhaken.read_to", "Bits read"),
}
asternhaken.fields = fields

-- ## Words

local titles = {
    NLN_GIVEN = "NLN given", NLN = "NLN", CALL_GIVEN = "Call", FIRST_OCTET = "First octet", PAGING = "Paging", CALL_REFERENCE = "Call reference", SERVICE_FLAG = "Service",
    ACKNOWLEDGEMENT_FLAG = "Acknowledgement", PRIORITY = "Priority", CIPHER_KEY_NUMBER = "Cipher key number", CHANNEL_GIVEN = "Channel given", CHANNEL = "Channel Description",
    HOPS = "Hopping", SHORT_LIST = "Frequencies", ALLOCATION_OCTETS = "Octets of allocation", ALLOCATION = "Mobile Allocation", FREQUENCY_SHORT_LIST = "Frequency Short List",
    IDENTITY_OCTETS = "Octets of identity", IDENTITY_FIRST = "Identity, first octet", IDENTITY_REST = "Identity, other octets", CHANNEL_FIRST = "Channel first",
    EMLPP_PRIORITY_GIVEN = "eMLPP priority given", EMLPP_PRIORITY = "eMLPP priority", RELEASE_6_GIVEN = "Release 6", COUNT_GIVEN = "Count given", CELL_GLOBAL_COUNT = "CELL_GLOBAL_COUNT",
    B22_COUNT = "B22_COUNT", REDUCED_GIVEN = "Reduced reference", REDUCED_REFERENCE = "Call reference", REDUCED_SERVICE_FLAG = "Service", RANDOM_GIVEN = "Random entry",
    SEGMENT_ID = "Segment Id", RAND_GIVEN = "VSTK_RAND given", VSTK_RAND = "VSTK_RAND", RELEASE_7_GIVEN = "Release 7", EMERGENCY_MARK_GIVEN = "Emergency mark",
    EMERGENCY_MARK = "Emergency_Ind", UPLINK_GIVEN = "Uplink access given", UPLINK_ACCESS = "Priority Uplink Access", AMR_GIVEN = "AMR parts given", FR_AMR_GIVEN = "FR AMR given",
    FR_AMR_CONFIG = "FR AMR Config", HR_AMR_GIVEN = "HR AMR given", HR_AMR_CONFIG = "HR AMR Config", SMS_GIVEN = "SMS bits given", SMS_CONFIDENTIALITY = "SMS confidentiality",
    SMS_PRIVACY = "SMS guaranteed privacy", EMERGENCY = "Emergency_Ind", PAGING_CAUSE_GIVEN = "Paging Cause given", PAGING_CAUSE = "Paging Cause",
}

local grounds = {
    [1] = "message length", [2] = "bits ran out", [3] = "allocation length", [4] = "reference", [5] = "hopping", [6] = "random entries", [7] = "emergency marks",
    [8] = "identity length", [14] = "bits ran out in Release 6", [15] = "bits ran out in Release 7",
}

-- ## Bits

-- A message under way: its bits, the place, the fields met, and the refusal, once there is one. `clip` is the number for bits that run out here.
local function begin(octets)
    local bits = {}
    for i = 0, octets:len() - 1 do
        local octet = octets:get_index(i)
        for place = 7, 0, -1 do
            bits[#bits + 1] = math.floor(octet / 2 ^ place) % 2
        end
    end
    return { bits = bits, at = 0, met = {}, clip = 2, refusal = 0, refused_bit = 0 }
end

local function refuse(m, number, bit)
    if m.refusal == 0 then m.refusal, m.refused_bit = number, bit or 0 end
end

-- So many bits are there, or it is refused.
local function is_there(m, width)
    if m.refusal ~= 0 then return false end
    if m.at + width > #m.bits then
        refuse(m, m.clip, m.at)
        return false
    end
    return true
end

local function hex(m, from, width)
    local digits, value = {}, 0
    for i = 0, width - 1 do
        value = value * 2 + m.bits[from + i + 1]
        if (width - i - 1) % 4 == 0 then
            digits[#digits + 1] = string.format("%x", value)
            value = 0
        end
    end
    return table.concat(digits)
end

local function list(m, name, width, value, text)
    m.met[#m.met + 1] = { name = name, bit = m.at, width = width, value = value, hex = text }
    m.at = m.at + width
end

-- A number of so many bits; above 2^53 its value is not exact, and only its hexadecimal digits are shown.
local function number(m, name, width)
    if not is_there(m, width) then return 0 end
    local value = 0
    for i = 1, width do value = value * 2 + m.bits[m.at + i] end
    list(m, name, width, value, width == 0 and "0" or hex(m, m.at, width))
    return value
end

-- The padding bit at a place, of the octet 2B.
local function padding(place)
    return ({ 0, 0, 1, 0, 1, 0, 1, 1 })[place % 8 + 1]
end

-- L is 0, H is 1.
local function coded(m, name)
    if not is_there(m, 1) then return 0 end
    local value = m.bits[m.at + 1] == padding(m.at) and 0 or 1
    list(m, name, 1, value, tostring(value))
    return value
end

-- A later release: nothing where all bits are used, L, or H and what stands in it.
local function release(m, name, clip, parts)
    if m.refusal ~= 0 or m.at == #m.bits or coded(m, name) == 0 then return end
    m.clip = clip
    parts(m)
end

-- { 0 | 1 < part > }
local function flagged(m, name, part)
    if number(m, name, 1) == 1 then part(m) end
end

-- { 1 < part > } ** 0: how many there were.
local function listed(m, name, part)
    local count = 0
    while number(m, name, 1) == 1 do
        part(m)
        count = count + 1
    end
    return count
end

-- ## Parts of both messages

local function frequencies(m)
    if number(m, "SHORT_LIST", 1) == 1 then
        number(m, "FREQUENCY_SHORT_LIST", 64)
        return
    end
    local octets = number(m, "ALLOCATION_OCTETS", 8)
    if m.refusal == 0 and (octets < 1 or octets > 8) then refuse(m, 3) end
    if m.refusal == 0 then number(m, "ALLOCATION", 8 * octets) end
end

local function description(m)
    local channel, hops = number(m, "CHANNEL", 24), number(m, "HOPS", 1)
    if m.refusal ~= 0 then return end
    if math.floor(channel / 2 ^ 12) % 2 ~= hops then refuse(m, 5) end
    if hops == 1 and m.refusal == 0 then frequencies(m) end
end

-- The call is put among those of the message, with what it has.
local function call(m)
    if not is_there(m, 36) then return end
    local c = { reference = number(m, "CALL_REFERENCE", 27), vgcs = number(m, "SERVICE_FLAG", 1) }
    number(m, "ACKNOWLEDGEMENT_FLAG", 1)
    number(m, "PRIORITY", 3)
    c.key_number = number(m, "CIPHER_KEY_NUMBER", 4)
    if c.reference > 99999999 then refuse(m, 4) end
    m.calls[#m.calls + 1] = c
    flagged(m, "CHANNEL_GIVEN", function()
        c.described = true
        description(m)
    end)
end

local function random(m)
    flagged(m, "RAND_GIVEN", function() number(m, "VSTK_RAND", 36) end)
end

-- ## NT/N Rest Octets

local function reduced(m)
    if not is_there(m, 28) then return end
    local c = { reference = number(m, "REDUCED_REFERENCE", 27), vgcs = number(m, "REDUCED_SERVICE_FLAG", 1), reduced = true }
    if c.reference > 99999999 then refuse(m, 4) end
    m.calls[#m.calls + 1] = c
end

local function nch_release_6(m)
    flagged(m, "COUNT_GIVEN", function() number(m, "CELL_GLOBAL_COUNT", 2) end)
    listed(m, "REDUCED_GIVEN", reduced)
    m.randoms = listed(m, "RANDOM_GIVEN", function()
        number(m, "SEGMENT_ID", 1)
        random(m)
    end)
end

local function nch_release_7(m)
    m.marks = listed(m, "EMERGENCY_MARK_GIVEN", function() number(m, "EMERGENCY_MARK", 1) end)
    flagged(m, "UPLINK_GIVEN", function() number(m, "UPLINK_ACCESS", 1) end)
    flagged(m, "AMR_GIVEN", function()
        flagged(m, "FR_AMR_GIVEN", function() number(m, "FR_AMR_CONFIG", 4) end)
        flagged(m, "HR_AMR_GIVEN", function() number(m, "HR_AMR_CONFIG", 4) end)
    end)
    flagged(m, "SMS_GIVEN", function()
        number(m, "SMS_CONFIDENTIALITY", 1)
        number(m, "SMS_PRIVACY", 1)
    end)
end

local function read_nch(octets)
    local m = begin(octets)
    m.calls, m.randoms, m.marks = {}, 0, 0
    if octets:len() ~= 20 then
        refuse(m, 1)
        return m
    end
    flagged(m, "NLN_GIVEN", function() number(m, "NLN", 2) end)
    listed(m, "CALL_GIVEN", call)
    release(m, "RELEASE_6_GIVEN", 14, nch_release_6)
    release(m, "RELEASE_7_GIVEN", 15, nch_release_7)
    local ciphered, described = 0, 0
    for _, c in ipairs(m.calls) do
        if c.reduced or c.key_number > 0 then ciphered = ciphered + 1 end
        if c.described then described = described + 1 end
    end
    if m.randoms > ciphered then refuse(m, 6) end
    if m.marks > described then refuse(m, 7) end
    return m
end

-- ## NOTIFICATION/FACCH

local function page(m)
    local octets = number(m, "IDENTITY_OCTETS", 8)
    if m.refusal == 0 and (octets < 1 or octets > 9) then refuse(m, 8) end
    if m.refusal ~= 0 or not is_there(m, 8 * octets) then return end
    m.pages = true
    number(m, "IDENTITY_FIRST", 8)
    number(m, "IDENTITY_REST", 8 * (octets - 1))
    number(m, "CHANNEL_FIRST", 2)
    flagged(m, "EMLPP_PRIORITY_GIVEN", function() number(m, "EMLPP_PRIORITY", 3) end)
end

local function facch_release_6(m)
    flagged(m, "COUNT_GIVEN", function()
        number(m, "CELL_GLOBAL_COUNT", 2)
        number(m, "B22_COUNT", 1)
    end)
    random(m)
end

local function facch_release_7(m)
    coded(m, "UPLINK_ACCESS")
    coded(m, "EMERGENCY")
    flagged(m, "PAGING_CAUSE_GIVEN", function() number(m, "PAGING_CAUSE", 1) end)
end

local function read_facch(octets)
    local m = begin(octets)
    m.calls = {}
    if octets:len() < 2 or octets:len() > 23 then
        refuse(m, 1)
        return m
    end
    number(m, "FIRST_OCTET", 8)
    if number(m, "PAGING", 1) == 1 then page(m) elseif m.refusal == 0 then call(m) end
    release(m, "RELEASE_6_GIVEN", 14, facch_release_6)
    release(m, "RELEASE_7_GIVEN", 15, facch_release_7)
    return m
end

-- ## What is shown

local function call_text(c)
    local text = string.format("%d %s", c.reference, c.vgcs == 1 and "VGCS" or "VBS")
    if c.reduced then return text .. " (reduced)" end
    if c.described then text = text .. " with a channel" end
    if c.key_number > 0 then text = text .. string.format(", key %d", c.key_number) end
    return text
end

local function info_text(m, channel)
    local parts = {}
    for _, c in ipairs(m.calls) do parts[#parts + 1] = call_text(c) end
    if m.pages then parts[#parts + 1] = "pages a mobile station" end
    if m.refusal ~= 0 then
        local place = m.refused_bit > 0 and string.format(" at bit %d", m.refused_bit) or ""
        parts[#parts + 1] = string.format("refused %d%s: %s", m.refusal, place, grounds[m.refusal] or "?")
    end
    if #parts == 0 then parts[1] = "no calls" end
    return string.format("%s: %s", channel, table.concat(parts, "; "))
end

-- The octets that a field's bits stand in.
local function range_of(octets, f)
    local from, to = math.floor(f.bit / 8), math.floor((f.bit + math.max(f.width, 1) - 1) / 8)
    return octets(from, to - from + 1)
end

local function show_fields(m, octets, tree)
    local trace = {}
    for _, f in ipairs(m.met) do
        if f.width > 0 then
            local value = f.width > 32 and "0x" .. f.hex or string.format("%d", f.value)
            tree:add(fields.field, range_of(octets, f), f.name):set_text(string.format("%s: %s (bit %d, %s)", titles[f.name], value, f.bit, f.width == 1 and "1 bit" or f.width .. " bits"))
            trace[#trace + 1] = string.format("%d:%d:%s:%s", f.bit, f.width, f.name, f.hex)
        end
    end
    local item = tree:add(fields.trace, octets(), table.concat(trace, " "))
    item:set_generated()
    item:set_text("All fields in one line")
end

local function show(m, octets, channel, pinfo, tree)
    local branch = tree:add(asternhaken, octets(), channel == "NCH" and "NT/N Rest Octets" or "NOTIFICATION/FACCH")
    branch:append_text(", " .. info_text(m, channel))
    branch:add(fields.channel, octets(), channel):set_generated()
    show_fields(m, octets, branch)
    for _, c in ipairs(m.calls) do
        branch:add(fields.reference, octets(), c.reference):set_generated()
        branch:add(fields.service, octets(), c.vgcs == 1 and "VGCS" or "VBS"):set_generated()
    end
    branch:add(fields.refusal, octets(), m.refusal):set_generated()
    branch:add(fields.refused_bit, octets(), m.refused_bit):set_generated()
    branch:add(fields.read_to, octets(), m.at):set_generated()
    pinfo.cols.info = info_text(m, channel)
    pinfo.cols.protocol = "Notification"
end

-- ## Where messages are found

local gsmtap, version, header, kind = Field.new("gsmtap"), Field.new("gsmtap.version"), Field.new("gsmtap.hdr_len"), Field.new("gsmtap.type")
local uplink, channel_type, udp_length = Field.new("gsmtap.uplink"), Field.new("gsmtap.chan_type"), Field.new("udp.length")

-- NCH blocks are on the CCCH, whose channel type varies from tool to tool.
local nch_types = { [0] = true, [1] = true, [2] = true, [4] = true, [5] = true }

-- The octets behind GSMTAP's header, or nothing.
local function payload(buffer)
    local here, before = gsmtap(), header() -- in octets
    if not here or not before or not version() or version().value ~= 2 or not kind() or kind().value ~= 1 then return nil end
    if uplink() and uplink().value ~= 0 then return nil end
    local from = here.offset + before.value
    local length = buffer:len() - from
    if udp_length() then length = math.min(length, udp_length().value - 8 - before.value) end
    if length < 1 then return nil end
    return buffer(from, length):bytes(), buffer(from, length)
end

local function begins_facch(octet)
    return octet == 0x04 or octet == 0x06
end

function asternhaken.dissector(buffer, pinfo, tree)
    local octets, range = payload(buffer)
    local where = channel_type()
    if not octets or not where then return end
    local n, on = octets:len(), where.value
    if nch_types[on] and n > 3 and octets:get_index(1) == 0x06 and octets:get_index(2) == 0x20 then
        show(read_nch(octets:subset(3, n - 3)), range(3, n - 3), "NCH", pinfo, tree)
        return
    end
    if on < 128 and on ~= 9 and on ~= 10 then return end
    local before = on >= 128 and n >= 23 and 2 or 0 -- the SACCH has two octets of layer 1 before its block
    if begins_facch(octets:get_index(before)) then
        show(read_facch(octets:subset(before, n - before)), range(before, n - before), "FACCH", pinfo, tree)
    end
end

register_postdissector(asternhaken)
