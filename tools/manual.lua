-- What `pandoc` makes in a manual page of what a terminal does not bear.

-- A link is its words alone, since a terminal follows none.
function Link(link)
    return link.content
end

function RawInline(raw)
    if raw.text:match("^<br ?/?>$") then return pandoc.LineBreak() end
end

local function is_wide(rows)
    for _, row in ipairs(rows) do
        for _, cell in ipairs(row) do
            if #pandoc.utils.stringify(cell) > 90 then return true end
        end
    end
    return false
end

-- A table with much text in a cell is a list: of each row the first cell, and after it the others, each with the head of its column.
function Table(found)
    local simple = pandoc.utils.to_simple_table(found)
    if not is_wide(simple.rows) then return found end
    local items = {}
    for _, row in ipairs(simple.rows) do
        local said = {}
        for place = 2, #row do
            table.insert(said, pandoc.Para({pandoc.Emph(pandoc.utils.blocks_to_inlines(simple.header[place])), pandoc.Str(":")}))
            for _, block in ipairs(row[place]) do table.insert(said, block) end
        end
        table.insert(items, {pandoc.utils.blocks_to_inlines(row[1]), {said}})
    end
    return pandoc.DefinitionList(items)
end
