# The rows of the document and of the patch, by the fields' names, as they are
# when the first byte of the result is written. Sourced by tests/dump.sh.
set pagination off
set confirm off
set debuginfod enabled off
set print pretty off
set print frame-arguments none
set style enabled off

define rows
  set $row = $arg0
  set $last = $row + work.nodes[$row].span
  while $row <= $last
    set $node = work.nodes[$row]
    printf "%d ", $row
    output (enum json_patch_kind) ($node.tags % 8)
    printf " "
    output $node
    if $node.name_length
      printf " name "
      if $node.tags / 1024 % 2
        output patch[$node.name_start]@$node.name_length
      else
        output document[$node.name_start]@$node.name_length
      end
    end
    if $node.length
      printf " text "
      if $node.tags / 64 % 2
        output patch[$node.start]@$node.length
      else
        output document[$node.start]@$node.length
      end
    end
    printf "\n"
    set $row = $row + 1
  end
end
document rows
rows ROW: the node in a row of the work area, and all nodes below it.
end
