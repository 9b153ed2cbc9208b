-- Shows DDCMP in Wireshark: lines over TCP, and over UDP with whole frames in each datagram.
--
--     tshark -X lua_script:ddcmp.lua -o ddcmp.ports:7000-7001 -r capture.pcap
--
-- or put it into the folder of personal Lua plugins (Help, About, Folders). It reads as `ddcmp explain
-- --discarded` does: what is no frame is skipped byte by byte, and of headers with a wrong check only the
-- first since the last good one is shown.

local ddcmp = Proto("ddcmp", "Digital Data Communications Message Protocol")

local CLASSES = { [0x05] = "Control", [0x81] = "Data", [0x90] = "Maintenance" }
local TYPES = { [1] = "ACK", [2] = "NAK", [3] = "REP", [6] = "STRT", [7] = "STACK" }
local REASONS = {
  [1] = "header check", [2] = "data check", [3] = "reply to REP", [8] = "buffer temporarily unavailable",
  [9] = "receive overrun", [16] = "message too long", [17] = "header format error",
}
local STATUS = { [0] = "Bad", [1] = "Good" }

local f = {
  item = ProtoField.string("ddcmp.item", "Item"),
  class = ProtoField.uint8("ddcmp.class", "Class", base.HEX, CLASSES),
  type = ProtoField.uint8("ddcmp.type", "TYPE", base.DEC, TYPES),
  count = ProtoField.uint16("ddcmp.count", "COUNT", base.DEC, nil, 0x3fff),
  sub = ProtoField.uint8("ddcmp.sub", "SUBTYPE", base.DEC, nil, 0x3f),
  reason = ProtoField.string("ddcmp.reason", "Reason"),
  q = ProtoField.bool("ddcmp.q", "Quick sync (Q)", 8, nil, 0x40),
  s = ProtoField.bool("ddcmp.s", "Select (S)", 8, nil, 0x80),
  resp = ProtoField.uint8("ddcmp.resp", "RESP"),
  num = ProtoField.uint8("ddcmp.num", "NUM"),
  addr = ProtoField.uint8("ddcmp.addr", "ADDR"),
  blkck1 = ProtoField.uint16("ddcmp.blkck1", "BLKCK1", base.HEX),
  status1 = ProtoField.uint8("ddcmp.blkck1.status", "BLKCK1 status", base.DEC, STATUS),
  data = ProtoField.bytes("ddcmp.data", "Data"),
  blkck2 = ProtoField.uint16("ddcmp.blkck2", "BLKCK2", base.HEX),
  status2 = ProtoField.uint8("ddcmp.blkck2.status", "BLKCK2 status", base.DEC, STATUS),
  fill = ProtoField.bytes("ddcmp.fill", "Fill (SYN, DEL)"),
  discarded = ProtoField.bytes("ddcmp.discarded", "Discarded"),
  have = ProtoField.uint16("ddcmp.have", "Bytes of the frame that are here"),
}
ddcmp.fields = f

local function told(name, text, group, severity)
  return ProtoExpert.new("ddcmp." .. name, text, expert.group[group], expert.severity[severity])
end
local e = {
  header = told("blkck1.bad", "Wrong header check (BLKCK1)", "CHECKSUM", "ERROR"),
  data = told("blkck2.bad", "Wrong data check (BLKCK2)", "CHECKSUM", "ERROR"),
  format = told("format", "Header format error", "MALFORMED", "ERROR"),
  nak = told("nak", "NAK", "SEQUENCE", "NOTE"),
  junk = told("junk", "Bytes of no frame", "PROTOCOL", "WARN"),
  open = told("unfinished", "Unfinished frame", "PROTOCOL", "WARN"),
}
ddcmp.experts = e

ddcmp.prefs.ports = Pref.range("TCP and UDP ports", "", "Ports of either end, as 7000-7003,7010", 65535)

-- Lua 5.2 has bit32, and 5.4 has ~.
local xor = bit32 and bit32.bxor or load("return function(a, b) return a ~ b end")()
local halved = {}
for byte = 0, 255 do
  local value = byte
  for _ = 1, 8 do
    value = value % 2 == 1 and xor(math.floor(value / 2), 0xa001) or math.floor(value / 2)
  end
  halved[byte] = value
end

-- Whether the CRC-16 of so many bytes from a place on is the two bytes behind them.
local function is_checked(text, at, count)
  local crc = 0
  for place = at, at + count - 1 do
    crc = xor(math.floor(crc / 256), halved[xor(crc % 256, text:byte(place))])
  end
  local low, high = text:byte(at + count, at + count + 1)
  return crc == low + 256 * high
end

-- What a header with a right check begins: its name, its COUNT, or what its format lacks.
local function named(text, at)
  local class, one, two = text:byte(at, at + 2)
  if class == 0x05 then
    return TYPES[one], 0, "type=" .. one
  end
  local count = one + two % 64 * 256
  return count > 0 and (class == 0x81 and "DATA" or "MAINT"), count, "count=0"
end

-- Splits a text into frames, faults and what lies between. Returns them, the place of the frame that isn't
-- whole (one past the end if none is), how many bytes that lacks, if its header tells, and whether
-- synchronism is lost.
local function split(text, lost)
  local items, from, at = {}, 1, 1
  local function pass(upto)
    if from < upto then
      items[#items + 1] = { at = from, size = upto - from }
    end
    from = upto
  end
  while true do
    at = text:find("[\5\129\144]", at) or #text + 1
    if #text - at < 7 then
      pass(at)
      return items, at, nil, lost
    end
    if is_checked(text, at, 6) then
      local name, count, lack = named(text, at)
      local size = name and count > 0 and count + 10 or 8
      lost = false
      pass(at)
      if at + size - 1 > #text then
        return items, at, at + size - 1 - #text, lost
      end
      items[#items + 1] = { at = at, size = size, name = name, lack = not name and lack }
      from, at = at + size, at + size
    else
      if not lost then
        pass(at)
        items[#items + 1] = { at = at, size = 8, bad = true }
      end
      lost, at = true, at + 1
    end
  end
end

local function add_status(tree, range, number, good)
  tree:add(f["status" .. number], range, good and 1 or 0):set_generated()
  if not good then
    tree:add_proto_expert_info(number == 1 and e.header or e.data)
  end
end

local function add_check(tree, tvb, at, number, good)
  tree:add_le(f["blkck" .. number], tvb(at, 2))
  add_status(tree, tvb(at, 2), number, good)
end

-- Adds the fields of a header without a form.
local function add_class(tree, tvb, at, lack)
  tree:add(f.class, tvb(at, 1))
  if lack == "count=0" then
    tree:add_le(f.count, tvb(at + 1, 2))
  else
    tree:add(f.type, tvb(at + 1, 1))
  end
  add_check(tree, tvb, at + 6, 1, true)
end

-- Adds the fields of a good header, and returns them in words.
local function add_header(tree, tvb, at, name)
  local two = tvb(at + 2, 1)
  local words = { name }
  local function put(label, value)
    words[#words + 1] = label .. "=" .. value
  end
  tree:add(f.class, tvb(at, 1))
  if tvb(at, 1):uint() == 0x05 then
    local sub = two:bitfield(2, 6)
    tree:add(f.type, tvb(at + 1, 1))
    tree:add(f.sub, two)
    put("sub", sub)
    if name == "NAK" then
      tree:add(f.reason, two, REASONS[sub] or "other")
      tree:add_proto_expert_info(e.nak, "NAK: " .. (REASONS[sub] or "other"))
    end
  else
    tree:add_le(f.count, tvb(at + 1, 2))
    put("count", tvb(at + 1, 1):uint() + two:bitfield(2, 6) * 256)
  end
  tree:add(f.q, two)
  put("q", two:bitfield(1, 1))
  tree:add(f.s, two)
  put("s", two:bitfield(0, 1))
  for place, field in ipairs({ "resp", "num", "addr" }) do
    tree:add(f[field], tvb(at + 2 + place, 1))
    put(field, tvb(at + 2 + place, 1):uint())
  end
  add_check(tree, tvb, at + 6, 1, true)
  return table.concat(words, " ")
end

-- Adds the data of a frame, and returns whether they are right.
local function add_data(tree, tvb, text, item)
  local at, count = item.at + 7, item.size - 10
  local good = is_checked(text, item.at + 8, count)
  tree:add(f.data, tvb(at, count))
  add_check(tree, tvb, at + count, 2, good)
  return good
end

-- Adds an item, and returns its words as `ddcmp explain` has them; nothing for fill.
local function add_item(root, tvb, text, item)
  local at, size = item.at - 1, item.size
  local tree = root:add(ddcmp, tvb(at, size))
  local kind, line = item.name, nil
  if item.bad then
    kind = "header check"
    add_status(tree, tvb(at, size), 1, false)
  elseif item.lack then
    kind, line = "format", "format " .. item.lack
    add_class(tree, tvb, at, item.lack)
    tree:add_proto_expert_info(e.format)
  elseif item.open then
    kind, line = "unfinished", "unfinished " .. (item.name and add_header(tree, tvb, at, item.name) or "header")
    tree:add(f.have, tvb(at, size), size):set_generated()
    tree:add_proto_expert_info(e.open)
  elseif item.name then
    line = add_header(tree, tvb, at, item.name)
    if size > 8 and not add_data(tree, tvb, text, item) then
      kind, line = "data check", "data check " .. line
    elseif size > 8 then
      line = line .. " " .. tvb(at + 8, math.min(size - 10, 16)):bytes():tohex(true) .. (size > 26 and ".." or "")
    end
  elseif text:sub(item.at, at + size):find("[^\150\255]") then
    kind, line = "discarded", "discarded " .. size
    tree:add(f.discarded, tvb(at, size))
    tree:add_proto_expert_info(e.junk)
  else
    kind = "fill"
    tree:add(f.fill, tvb(at, size))
  end
  tree:add(f.item, tvb(at, size), kind):set_generated()
  tree:append_text(", " .. (line or kind))
  return line or item.bad and kind
end

-- Of each direction of a stream: whether it lost synchronism, and how many bytes wait for more. Of each call
-- what it found: Wireshark may make it again, without the bytes that it was told wait.
local ends, calls = {}, {}
local stream = Field.new("tcp.stream")

function ddcmp.init()
  ends, calls = {}, {}
end

local function direction(pinfo)
  local number = stream()
  return table.concat({ number and number.value or "", tostring(pinfo.src), pinfo.src_port, pinfo.dst_port }, " ")
end

-- Returns what counts of these bytes of a stream, and has what is open come again with more. If that begins in
-- bytes that came before, all comes again, so that none counts yet.
local function read_stream(tvb, pinfo, text)
  local call = pinfo.number .. " " .. tvb:offset()
  if not pinfo.visited then
    local way = direction(pinfo)
    local was = ends[way] or { lost = false, kept = 0 }
    local items, open, lacks, lost = split(text, was.lost)
    if open - 1 <= was.kept and open <= #text then
      items, open, lacks, lost = {}, 1, nil, was.lost
    end
    for _, item in ipairs(items) do
      item.size = math.min(item.size, open - item.at)
    end
    ends[way] = { lost = lost, kept = #text + 1 - open }
    calls[call] = { items = items, open = open, lacks = lacks }
  end
  local found = calls[call] or { items = {}, open = 1 }
  if found.open <= #text then
    pinfo.desegment_offset = found.open - 1
    -- Who names a number can't ask again once so many have come, as a header must.
    pinfo.desegment_len = found.lacks or DESEGMENT_ONE_MORE_SEGMENT
  end
  return found.items
end

local function read_datagram(text)
  local items, open, lacks = split(text, false)
  if open <= #text then
    items[#items + 1] = { at = open, size = #text + 1 - open, name = lacks and named(text, open), open = true }
  end
  return items
end

function ddcmp.dissector(tvb, pinfo, root)
  local text, lines = tvb:raw(), {}
  local items = pinfo.can_desegment > 0 and read_stream(tvb, pinfo, text) or read_datagram(text)
  for _, item in ipairs(items) do
    pinfo.cols.protocol = "DDCMP"
    lines[#lines + 1] = add_item(root, tvb, text, item) or nil
  end
  if #lines > 0 then
    pinfo.cols.info:clear()
    pinfo.cols.info:append((pinfo.private.ddcmp and " | " or "") .. table.concat(lines, " | "))
    pinfo.cols.info:fence()
    pinfo.private.ddcmp = "shown"
  end
  return tvb:len()
end

local tables = { DissectorTable.get("tcp.port"), DissectorTable.get("udp.port") }
local ports = ""
for _, it in ipairs(tables) do
  it:add_for_decode_as(ddcmp)
end

function ddcmp.prefs_changed()
  for _, it in ipairs(tables) do
    if ports ~= "" then
      it:remove(ports, ddcmp)
    end
    if ddcmp.prefs.ports ~= "" then
      it:add(ddcmp.prefs.ports, ddcmp)
    end
  end
  ports = ddcmp.prefs.ports
end
