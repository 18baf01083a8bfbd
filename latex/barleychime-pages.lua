-- A galley's nodes in pages by a list, each ended by a penalty that barleychime.sty takes up.

local N, G, L = ...
local has = node.has_attribute

local P = {}

-- Takes out what \end@float left in the text, waiting commands, and \enlargethispage.
local function strip(head, kludgeins)
  local n, aside = head, false
  while n do
    local next = n.next
    local penalty = n.id == N.PENALTY and n.penalty
    if penalty == N.ASIDE and has(n, N.ANCHOR) then aside = true end
    local closes = aside and N.closes_float(n)
    if aside or penalty == N.PAUSE or n.id == N.INS and n.subtype == kludgeins then
      head = node.remove(head, n)
      node.free(n)
    end
    if closes then aside = false end
    n = next
  end
  return head
end

-- Takes out boxes without size or contents from a node up to a line's box: at a
-- page's head they would keep the space that is to vanish there.
local function clear(head, n, box)
  while n and n ~= box do
    local next = n.next
    if N.is_box(n) and N.hollow(n) then
      head = node.remove(head, n)
      node.free(n)
    end
    n = next
  end
  return head
end

-- Takes out the space after a galley's last line, which vanishes at the page's edge. What stretches
-- without end stays; the line's depth hangs below the page there, too.
local function trim(head)
  local n, endless = node.tail(head), false
  while n and (n.id == N.GLUE or n.id == N.KERN or n.id == N.PENALTY) do
    local before = n.prev
    if n.id == N.GLUE and (n.stretch_order > 0 or n.shrink_order > 0) then endless = true
    elseif n.id ~= N.PENALTY then
      head = node.remove(head, n)
      node.free(n)
    end
    n = before
  end
  if endless and n and N.is_box(n) then
    local _, depth = N.size(n)
    local kern = node.new(N.KERN)
    kern.kern = -math.min(depth, tex.dimen["@maxdepth"])
    head = node.insert_after(head, n, kern)
  end
  return head
end

local function floats_of(stream, from, to)
  local t = {}
  for k = from + 1, to do t[#t + 1] = stream[k].float end
  return t
end

-- Ends a page before a node, or at the list's end. A page of floats alone gets an empty
-- box, to have something to break after.
local function end_page(head, before, text)
  local new = {N.penalty(N.PAGE_END)}
  if not text then table.insert(new, 1, node.new(N.HLIST)) end
  for _, n in ipairs(new) do
    if before then head = node.insert_before(head, before, n)
    else head = node.insert_after(head, node.tail(head), n) end
  end
  return head
end

-- The galley's nodes with a page end after each page, and the pages: which floats each
-- has, whether it has text, and how high the model says that it is.
function P.in_pages(g, list, head, kludgeins)
  head = trim(strip(head, kludgeins))
  local pages, from = {}, {0, 0, 0}
  local at = nil                        -- the node before which the next page opens
  for q, to in ipairs(list) do
    local page = {text = to[1] > from[1], number = q, galley = g.number,
                  FG = floats_of(g.FG, from[2], to[2]), TB = floats_of(g.TB, from[3], to[3])}
    page.tight, page.loose = L.extent(g, from, to)
    local before = at
    if page.text then before = to[1] < #g.lines and g.lines[to[1]].stop or nil
    elseif from[1] == 0 then before = head end
    head = end_page(head, before, page.text)
    if page.text and before then head = clear(head, before, g.lines[to[1] + 1].box) end
    at, from = before, to
    pages[q] = page
  end
  return head, pages
end

return P
