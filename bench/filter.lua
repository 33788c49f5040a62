-- bench/filter.c in Lua.
local byte = string.byte
return function(frame)
    local high, low, version = byte(frame, 13, 15)
    if high ~= 8 or low ~= 0 or version ~= 0x45 then return 0 end
    local flags, offset, _, protocol = byte(frame, 21, 24)
    if flags & 0x3f ~= 0 or offset ~= 0 or protocol ~= 6 then return 0 end
    local first, second = byte(frame, 37, 38)
    return (first << 8 | second) == 443 and 1 or 0
end
