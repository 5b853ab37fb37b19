-- robus.lua: what Wireshark and tshark show of the captures of tools/trace.
--
-- Copy it into the folder of personal Lua plugins (Help, About Wireshark, Folders), or name it:
--     tshark -X lua_script:share/wireshark/robus.lua -r run.pcapng 'robus.slot == 5'
--
-- docs/TRACES.md has the header before each message, docs/FORMATS.md the message.

local robus = Proto("robus", "ROBUS fault-tolerant broadcast bus")

local HEADER_VERSION, HEADER_LENGTH = 1, 22
local TAGS = { [1] = "word", [2] = "fault", [3] = "call" }
local STAGES = { [1] = "1", [2] = "2", [3] = "3", [4] = "tail" }
local CHECKS = { "right", "wrong" }

local from = ProtoField.string("robus.from", "From")
local to = ProtoField.string("robus.to", "To")
local faulty = ProtoField.bool("robus.faulty", "Sender is faulty by the scenario")
local tick = ProtoField.uint32("robus.tick", "Tick of the receiver")
local window_frame = ProtoField.uint32("robus.window.frame", "Frame of the window")
local window_slot = ProtoField.uint16("robus.window.slot", "Slot of the window")
local window_purpose = ProtoField.string("robus.window.purpose", "Slot of the window is for")
local window_stage = ProtoField.uint8("robus.window.stage", "Stage of the window", base.DEC, STAGES)
local in_turn = ProtoField.bool("robus.in_turn", "Names the window in which it came")
local spells = ProtoField.bool("robus.spells", "Spells a message of this bus")
local version = ProtoField.uint8("robus.version", "Version of the messages")
local tag = ProtoField.uint8("robus.tag", "Tag", base.DEC, TAGS)
local frame = ProtoField.uint16("robus.frame", "Frame modulo 65536")
local slot = ProtoField.uint16("robus.slot", "Slot")
local purpose = ProtoField.string("robus.purpose", "Slot is for")
local stage = ProtoField.uint8("robus.stage", "Stage")
local value = ProtoField.uint32("robus.value", "Value")
local bus = ProtoField.uint8("robus.bus", "Bus")
local check = ProtoField.uint8("robus.check", "Check", base.HEX)
local check_right = ProtoField.bool("robus.check_right", "Check is right")
local raw = ProtoField.bytes("robus.raw", "Bytes that spell no message")

robus.fields = {
  from, to, faulty, tick, window_frame, window_slot, window_purpose, window_stage, in_turn, spells,
  version, tag, frame, slot, purpose, stage, value, bus, check, check_right, raw,
}

local garbage = ProtoExpert.new("robus.garbage", "These bytes spell no message of this bus",
  expert.group.MALFORMED, expert.severity.ERROR)
local out_of_turn = ProtoExpert.new("robus.out_of_turn",
  "The message names another window than the one in which it came",
  expert.group.SEQUENCE, expert.severity.WARN)

robus.experts = { garbage, out_of_turn }

-- The name of a node, of which the range has the kind and the number
local function name_of(range)
  return (range(0, 1):uint() == 0 and "B" or "R") .. range(1, 1):uint()
end

-- What a slot is for, on a bus of these sizes
local function purpose_of(number, sizes)
  local parts = {
    { sizes.biu, "request of B" }, { sizes.slots, "data " },
    { sizes.biu, "diagnosis by B" }, { sizes.rmu, "diagnosis by R" },
  }
  for _, part in ipairs(parts) do
    if number < part[1] then return part[2] .. number end
    number = number - part[1]
  end
  return number == 0 and "sync" or "no slot of this bus"
end

local function exclusive_or(range)
  local sum = 0
  for i = 0, range:len() - 1 do sum = bit.bxor(sum, range(i, 1):uint()) end
  return sum
end

-- The bytes of a message of the right length as fields; whether they spell one of this bus
local function add_message(tree, bytes, of)
  local last = bytes:len() - 1
  local is_right = exclusive_or(bytes(0, last)) == bytes(last, 1):uint()
  tree:add(tag, bytes(0, 1))
  tree:add(frame, bytes(1, 2))
  tree:add(slot, bytes(3, 2))
  tree:add(purpose, bytes(3, 2), purpose_of(bytes(3, 2):uint(), of)):set_generated()
  tree:add(stage, bytes(5, 1))
  tree:add(value, bytes(6, 4))
  if of.version == 2 then tree:add(bus, bytes(10, 1)) end
  tree:add(check, bytes(last, 1)):append_text(" (" .. CHECKS[is_right and 1 or 2] .. ")")
  tree:add(check_right, is_right):set_generated()
  local kind, place = bytes(0, 1):uint(), bytes(5, 1):uint()
  return is_right and TAGS[kind] ~= nil and place >= 1 and place <= 3
    and (kind == 1 or bytes(6, 4):uint() == 0)
    and (of.version == 1 or bytes(10, 1):uint() == of.bus)
end

-- Whether a message that spells one names the window in which it came
local function is_in_turn(bytes, of)
  return bytes(1, 2):uint() == of.frame % 65536 and bytes(3, 2):uint() == of.slot
    and bytes(5, 1):uint() == of.stage
end

-- What a message says, in a word or two
local function said_in(bytes)
  local name = TAGS[bytes(0, 1):uint()]
  return name == "word" and "word " .. bytes(6, 4):uint() or name
end

-- The header as values
local function read_header(buffer)
  return {
    source = name_of(buffer(1, 2)), target = name_of(buffer(3, 2)),
    version = buffer(5, 1):uint(), bus = buffer(6, 1):uint(),
    biu = buffer(7, 1):uint(), rmu = buffer(8, 1):uint(), slots = buffer(9, 1):uint(),
    stage = buffer(11, 1):uint(), slot = buffer(12, 2):uint(), frame = buffer(14, 4):uint(),
  }
end

local function add_header(tree, buffer, of)
  tree:add(from, buffer(1, 2), of.source)
  tree:add(to, buffer(3, 2), of.target)
  tree:add(faulty, buffer(10, 1))
  tree:add(tick, buffer(18, 4))
  tree:add(window_frame, buffer(14, 4))
  tree:add(window_slot, buffer(12, 2))
  tree:add(window_purpose, buffer(12, 2), purpose_of(of.slot, of)):set_generated()
  tree:add(window_stage, buffer(11, 1))
  tree:add(version, buffer(5, 1))
end

-- The message behind the header; what the column Info says of it
local function add_body(tree, bytes, of)
  if bytes:len() == 10 + of.version and add_message(tree, bytes, of) then
    local fits = is_in_turn(bytes, of)
    tree:add(spells, true):set_generated()
    tree:add(in_turn, fits):set_generated()
    if not fits then tree:add_proto_expert_info(out_of_turn) end
    local number = bytes(3, 2):uint()
    return string.format("frame %d, slot %d (%s), stage %d: %s%s", bytes(1, 2):uint(), number,
      purpose_of(number, of), bytes(5, 1):uint(), said_in(bytes), fits and "" or ", out of turn")
  end
  tree:add(raw, bytes)
  tree:add(spells, false):set_generated()
  tree:add_proto_expert_info(garbage)
  return string.format("frame %d, slot %d (%s), stage %s: bytes %s that spell no message", of.frame,
    of.slot, purpose_of(of.slot, of), STAGES[of.stage], tostring(bytes:bytes()):lower())
end

function robus.dissector(buffer, pinfo, tree)
  if buffer:len() <= HEADER_LENGTH or buffer(0, 1):uint() ~= HEADER_VERSION then return 0 end
  local of = read_header(buffer)
  local branch = tree:add(robus, buffer())
  add_header(branch, buffer, of)
  pinfo.cols.protocol = "ROBUS"
  pinfo.cols.src = of.source
  pinfo.cols.dst = of.target
  local said = add_body(branch, buffer(HEADER_LENGTH), of)
  pinfo.cols.info = said .. (buffer(10, 1):uint() == 1 and " [faulty sender]" or "")
  branch:append_text(", " .. of.source .. " to " .. of.target)
  return buffer:len()
end

DissectorTable.get("wtap_encap"):add(wtap.USER0, robus)
