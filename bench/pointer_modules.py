"""Modules whose pointers are chosen, moved, compared, returned and taken by phis: texts of bench/assembly.py.

All have the capability VariablePointersStorageBuffer. The pointer types that OpPtrAccessChain begins at have an ArrayStride, as the standard
asks for; that of SWAPS is another one than that of its array, which makes no difference. All but FAULTS, whose operands without a value no
definition dominates, and SHOWN, which declares a variable by a phi, are valid by spirv-val too.
"""

HEAD = """OpCapability Shader
OpCapability Int8
OpCapability Int16
OpCapability Int64
OpCapability VariablePointersStorageBuffer
OpExtension "SPV_KHR_variable_pointers"
OpMemoryModel Logical GLSL450
OpEntryPoint GLCompute %main "main" {variables}
OpExecutionMode %main LocalSize {size} 1 1
OpName %main "main"
"""
TYPES = """%void = OpTypeVoid
%fn = OpTypeFunction %void
%bool = OpTypeBool
%uint = OpTypeInt 32 0
%zero = OpConstant %uint 0
%one = OpConstant %uint 1
%two = OpConstant %uint 2
%three = OpConstant %uint 3
%four = OpConstant %uint 4
%minus = OpConstant %uint 0xFFFFFFFF
%true = OpConstantTrue %bool
%to_uint = OpTypePointer StorageBuffer %uint
"""
MAIN = """%main = OpFunction %void None %fn
%entry = OpLabel
"""
END = """OpReturn
OpFunctionEnd
"""


def bound(variable, binding):
    return "OpDecorate %s DescriptorSet 0\nOpDecorate %s Binding %d\n" % (variable, variable, binding)


def text(body, declared="", names="", decorated="", variables=("%b",), size=1, stride=4):
    """A module with a few buffers, whose block is one array of four uints where nothing else is declared."""
    bindings = "".join(bound(variable, n) for n, variable in enumerate(variables) if variable != "%index")
    declared = declared or "%array = OpTypeArray %uint %four\n%block = OpTypeStruct %array\n"
    pointed = "%to_block = OpTypePointer StorageBuffer %block\n" + "".join(
        "%s = OpVariable %%to_block StorageBuffer\n" % variable for variable in variables if variable != "%index"
    )
    decorated = (decorated or FOUR) + "OpDecorate %%to_uint ArrayStride %d\nOpDecorate %%block Block\n" % stride
    return HEAD.format(variables=" ".join(variables), size=size) + names + decorated + bindings + TYPES + declared + pointed + body


FOUR = "OpDecorate %array ArrayStride 4\nOpMemberDecorate %block 0 Offset 0\n"

# One of two pointers, moved by an element, and what it leads to; the condition has the SpecId 0, the element the SpecId 1.
CHOSEN = text(
    MAIN + """%6 = OpAccessChain %to_uint %5 %zero %zero
%7 = OpAccessChain %to_uint %5 %zero %two
%8 = OpSelect %to_uint %c %6 %7
%9 = OpPtrAccessChain %to_uint %8 %element
%10 = OpLoad %uint %9
%11 = OpPtrEqual %bool %8 %6
""" + END,
    "%c = OpSpecConstantTrue %bool\n%element = OpSpecConstant %uint 1\n%array = OpTypeArray %uint %four\n%block = OpTypeStruct %array\n",
    decorated="OpDecorate %c SpecId 0\nOpDecorate %element SpecId 1\n" + FOUR, variables=("%5",),
)
# The same by a condition that isn't defined.
UNCHOSEN = CHOSEN.replace("OpDecorate %c SpecId 0\n", "").replace("%c = OpSpecConstantTrue %bool", "%c = OpUndef %bool")

# One of two buffers, by what stands in the first: its length, a store, a copy from it to the other one, an atomic, and comparisons.
BUFFERS = text(
    MAIN + """%first = OpAccessChain %to_uint %a %zero
%n = OpLoad %uint %first
%c = OpIEqual %bool %n %one
%chosen = OpSelect %to_block %c %a %b
%length = OpArrayLength %uint %chosen 1
%p = OpAccessChain %to_uint %chosen %one %one
%v = OpLoad %uint %p
%w = OpIAdd %uint %v %length
OpStore %p %w
%other = OpSelect %to_block %c %b %a
%q = OpPtrAccessChain %to_uint %other %zero %one %two
OpCopyMemory %q %p
%old = OpAtomicIAdd %uint %p %one %zero %three
%copy = OpCopyObject %to_block %chosen
%is_a = OpPtrEqual %bool %copy %a
%is_not_b = OpPtrNotEqual %bool %copy %b
%is_other = OpPtrEqual %bool %chosen %other
%far = OpAccessChain %to_uint %other %one %four
%last = OpLoad %uint %far
""" + END,
    "%rest = OpTypeRuntimeArray %uint\n%block = OpTypeStruct %uint %rest\n",
    decorated="OpDecorate %to_block ArrayStride 64\nOpDecorate %rest ArrayStride 4\nOpMemberDecorate %block 0 Offset 0\nOpMemberDecorate %block 1 Offset 4\n",
    variables=("%a", "%b"),
)

# Forth over the elements to the one behind the last, whose number has the SpecId 0, and back to the first.
WALK = text(
    MAIN + """%first = OpAccessChain %to_uint %b %zero %zero
%end = OpPtrAccessChain %to_uint %first %count
OpBranch %forth
%forth = OpLabel
%p = OpPhi %to_uint %first %entry %next %sums
%sum = OpPhi %uint %zero %entry %more %sums
%is_more = OpPtrNotEqual %bool %p %end
OpLoopMerge %turn %sums None
OpBranchConditional %is_more %sums %turn
%sums = OpLabel
%v = OpLoad %uint %p
%more = OpIAdd %uint %sum %v
%next = OpPtrAccessChain %to_uint %p %one
OpBranch %forth
%turn = OpLabel
OpBranch %back
%back = OpLabel
%q = OpPhi %to_uint %p %turn %before %stores
%is_over = OpPtrEqual %bool %q %first
OpLoopMerge %over %stores None
OpBranchConditional %is_over %over %stores
%stores = OpLabel
%before = OpPtrAccessChain %to_uint %q %minus
%w = OpLoad %uint %before
%less = OpISub %uint %sum %w
OpStore %before %less
OpBranch %back
%over = OpLabel
""" + END,
    "%count = OpSpecConstant %uint 4\n%array = OpTypeArray %uint %four\n%block = OpTypeStruct %array\n",
    decorated="OpDecorate %count SpecId 0\n" + FOUR,
)

# Functions that return pointers: the buffer, the one behind a pointer, and that of two that leads to the lesser number.
GIVEN = text(
    """%buffer = OpFunction %to_block None %of_none
%buffer_entry = OpLabel
OpReturnValue %b
OpFunctionEnd
%behind = OpFunction %to_uint None %of_one
%from = OpFunctionParameter %to_uint
%by = OpFunctionParameter %uint
%behind_entry = OpLabel
%there = OpPtrAccessChain %to_uint %from %by
OpReturnValue %there
OpFunctionEnd
%lesser = OpFunction %to_uint None %of_two
%x = OpFunctionParameter %to_uint
%y = OpFunctionParameter %to_uint
%lesser_entry = OpLabel
%vx = OpLoad %uint %x
%vy = OpLoad %uint %y
%is_less = OpULessThan %bool %vx %vy
OpSelectionMerge %none None
OpBranchConditional %is_less %gives_x %gives_y
%gives_x = OpLabel
OpReturnValue %x
%gives_y = OpLabel
%same = OpFunctionCall %to_uint %behind %y %zero
OpReturnValue %same
%none = OpLabel
OpUnreachable
OpFunctionEnd
""" + MAIN + """%block_of = OpFunctionCall %to_block %buffer
%first = OpAccessChain %to_uint %block_of %zero %zero
%second = OpFunctionCall %to_uint %behind %first %one
%third = OpFunctionCall %to_uint %behind %second %one
%are_one = OpPtrEqual %bool %second %third
%less = OpFunctionCall %to_uint %lesser %second %third
OpStore %less %four
%now = OpFunctionCall %to_uint %lesser %second %third
%differ = OpPtrNotEqual %bool %less %now
""" + END,
    "%array = OpTypeArray %uint %four\n%block = OpTypeStruct %array\n",
    names='OpName %buffer "buffer"\nOpName %behind "behind"\nOpName %lesser "lesser"\n',
).replace(
    "%b = OpVariable", "%of_none = OpTypeFunction %to_block\n%of_one = OpTypeFunction %to_uint %to_uint %uint\n"
    "%of_two = OpTypeFunction %to_uint %to_uint %to_uint\n%b = OpVariable"
)

# Two phis of pointers that exchange what they hold, beside one that counts.
SWAPS = text(
    MAIN + """%x = OpAccessChain %to_uint %b %zero %zero
%y = OpAccessChain %to_uint %b %zero %three
OpBranch %loop
%loop = OpLabel
%p = OpPhi %to_uint %x %entry %q %on
%q = OpPhi %to_uint %y %entry %p %on
%n = OpPhi %uint %zero %entry %next %on
%goes_on = OpULessThan %bool %n %three
OpLoopMerge %over %on None
OpBranchConditional %goes_on %on %over
%on = OpLabel
%v = OpLoad %uint %p
%w = OpIAdd %uint %v %four
OpStore %p %w
%next = OpIAdd %uint %n %one
OpBranch %loop
%over = OpLabel
%is_y = OpPtrEqual %bool %p %y
%is_x = OpPtrEqual %bool %q %x
""" + END,
    stride=64,
)

# Pointers to uints of two buffers by roots and paths that are equal and that differ, and by indexes of all widths.
EQUAL = text(
    MAIN + """%n = OpAccessChain %to_uint %c %zero
%at_0 = OpAccessChain %to_uint %c %one %zero
%at_2 = OpAccessChain %to_uint %c %one %two
%moved = OpPtrAccessChain %to_uint %at_0 %two
%back = OpPtrAccessChain %to_uint %moved %minus_two
%d_at_2 = OpAccessChain %to_uint %d %one %two
%by_byte = OpAccessChain %to_uint %c %one %byte
%by_half = OpAccessChain %to_uint %c %one %half
%by_word = OpAccessChain %to_uint %c %one %minus
%by_long = OpAccessChain %to_uint %c %one %long
%by_more = OpAccessChain %to_uint %c %one %more
%greatest = OpAccessChain %to_uint %c %one %most
%around = OpPtrAccessChain %to_uint %greatest %byte_1
%least = OpPtrAccessChain %to_uint %at_0 %lowest
%again = OpPtrAccessChain %to_uint %around %half
%same = OpPtrEqual %bool %at_2 %moved
%same_back = OpPtrEqual %bool %back %at_0
%another_index = OpPtrEqual %bool %at_2 %at_0
%another_index_not = OpPtrNotEqual %bool %at_2 %at_0
%another_length = OpPtrEqual %bool %n %at_0
%another_root = OpPtrEqual %bool %at_2 %d_at_2
%another_root_not = OpPtrNotEqual %bool %d_at_2 %at_2
%itself_not = OpPtrNotEqual %bool %by_byte %by_byte
%byte_half = OpPtrEqual %bool %by_byte %by_half
%half_word = OpPtrEqual %bool %by_half %by_word
%word_long = OpPtrEqual %bool %by_word %by_long
%long_more = OpPtrEqual %bool %by_long %by_more
%went_around = OpPtrEqual %bool %around %least
%came_back = OpPtrEqual %bool %again %greatest
%blocks = OpPtrEqual %bool %c %d
%itself = OpPtrEqual %bool %d %d
%found = OpLoad %uint %moved
%past = OpLoad %uint %around
""" + END,
    """%tiny = OpTypeInt 8 0
%short = OpTypeInt 16 1
%int = OpTypeInt 64 1
%minus_two = OpConstant %uint 0xFFFFFFFE
%byte = OpConstant %tiny 255
%byte_1 = OpConstant %tiny 1
%half = OpConstant %short -1
%long = OpConstant %int -1
%more = OpConstant %int 4294967295
%most = OpConstant %int 0x7FFFFFFFFFFFFFFF
%lowest = OpConstant %int -0x8000000000000000
%array = OpTypeArray %uint %four
%block = OpTypeStruct %uint %array
""",
    decorated="OpDecorate %array ArrayStride 4\nOpMemberDecorate %block 0 Offset 0\nOpMemberDecorate %block 1 Offset 4\n", variables=("%c", "%d"),
)

# A block of two vectors, two structs, two rows, a uint and as many uints as there are, and the types of pointers into it.
PARTS = """%pair = OpTypeVector %uint 2
%pairs = OpTypeArray %pair %two
%numbers = OpTypeArray %uint %two
%cell = OpTypeStruct %uint %numbers
%cells = OpTypeArray %cell %two
%row = OpTypeArray %uint %three
%rows = OpTypeArray %row %two
%rest = OpTypeRuntimeArray %uint
%block = OpTypeStruct %pairs %cells %rows %uint %rest
%to_pairs = OpTypePointer StorageBuffer %pairs
%to_pair = OpTypePointer StorageBuffer %pair
%to_cells = OpTypePointer StorageBuffer %cells
%to_cell = OpTypePointer StorageBuffer %cell
%to_row = OpTypePointer StorageBuffer %row
"""
LAYOUT = """OpDecorate %to_block ArrayStride 96
OpDecorate %to_pairs ArrayStride 16
OpDecorate %to_pair ArrayStride 8
OpDecorate %to_cells ArrayStride 24
OpDecorate %to_cell ArrayStride 12
OpDecorate %to_row ArrayStride 12
OpDecorate %pairs ArrayStride 8
OpDecorate %numbers ArrayStride 4
OpMemberDecorate %cell 0 Offset 0
OpMemberDecorate %cell 1 Offset 4
OpDecorate %cells ArrayStride 12
OpDecorate %row ArrayStride 4
OpDecorate %rows ArrayStride 12
OpDecorate %rest ArrayStride 4
OpMemberDecorate %block 0 Offset 0
OpMemberDecorate %block 1 Offset 16
OpMemberDecorate %block 2 Offset 40
OpMemberDecorate %block 3 Offset 64
OpMemberDecorate %block 4 Offset 68
"""

# Elements of arrays of vectors, structs, rows and uints, and 0 where the path is empty or its last index chooses a member or a component;
# these have the SpecIds 1 to 4.
EDGES = text(
    MAIN + """%pair_1 = OpAccessChain %to_pair %b %zero %one
%pair_0 = OpPtrAccessChain %to_pair %pair_1 %minus
%in_pair = OpPtrAccessChain %to_uint %pair_1 %minus %one
%component = OpAccessChain %to_uint %b %zero %one %zero
%of_component = OpPtrAccessChain %to_uint %component %e1
%of_empty = OpPtrAccessChain %to_uint %b %e2 %three
%member = OpAccessChain %to_uint %b %three
%of_member = OpPtrAccessChain %to_uint %member %e3
%all_cells = OpAccessChain %to_cells %b %one
%cell_1 = OpPtrAccessChain %to_cell %all_cells %e4 %one
%in_cell = OpPtrAccessChain %to_uint %cell_1 %minus %one %one
%row_0 = OpAccessChain %to_row %b %two %zero
%in_row = OpPtrAccessChain %to_uint %row_0 %one %two
%before = OpPtrAccessChain %to_uint %in_row %minus
%behind = OpPtrAccessChain %to_uint %in_row %one
%rest_0 = OpAccessChain %to_uint %b %four %zero
%rest_2 = OpPtrAccessChain %to_uint %rest_0 %two
%far = OpPtrAccessChain %to_uint %rest_2 %million
%v1 = OpLoad %pair %pair_0
%v2 = OpLoad %uint %in_pair
%v3 = OpLoad %uint %of_empty
OpStore %in_cell %million
%v4 = OpLoad %uint %before
OpCopyMemory %rest_2 %before
%v5 = OpLoad %uint %rest_2
%v6 = OpLoad %uint %behind
""" + END,
    "".join("%%e%d = OpSpecConstant %%uint 0\n" % n for n in range(1, 5)) + "%million = OpConstant %uint 1000000\n" + PARTS,
    decorated="".join("OpDecorate %%e%d SpecId %d\n" % (n, n) for n in range(1, 5)) + LAYOUT,
)

# By number: the block of a case, the result at which it faults or nothing where that is the branch, and which fault it is. What has the
# name `late` gets a value in the last block alone.
CASES = [
    # an element that isn't defined, by itself and computed; an index that isn't; both are looked for before the path is
    ("%x0 = OpPtrAccessChain %to_uint %first %undefined", "%x0", 2),
    ("%q1 = OpUDiv %uint %one %zero\n%x1 = OpPtrAccessChain %to_uint %first %q1", "%x1", 2),
    ("%x2 = OpPtrAccessChain %to_uint %b %zero %four %undefined", "%x2", 2),
    ("%x3 = OpPtrAccessChain %to_uint %b %one %four %undefined", "%x3", 2),
    ("%x4 = OpPtrAccessChain %to_uint %b %undefined %three", "%x4", 2),
    ("%u5 = OpUndef %bool\n%x5 = OpSelect %to_uint %u5 %first %first", "%x5", 2),
    ("%u6 = OpPtrEqual %bool %first %first\n%v6 = OpSelect %bool %u6 %undefined_bool %true\n%x6 = OpSelect %to_uint %v6 %first %first", "%x6", 2),
    # an element other than 0, where the path is empty, or its last index chooses a member or a component
    ("%x7 = OpPtrAccessChain %to_uint %b %one %three", "%x7", 3),
    ("%y8 = OpAccessChain %to_uint %b %three\n%x8 = OpPtrAccessChain %to_uint %y8 %minus", "%x8", 3),
    ("%y9 = OpAccessChain %to_uint %b %zero %zero %zero\n%x9 = OpPtrAccessChain %to_uint %y9 %one", "%x9", 3),
    ("%y10 = OpAccessChain %to_pairs %b %zero\n%x10 = OpPtrAccessChain %to_pair %y10 %one %zero", "%x10", 3),
    ("%y11 = OpAccessChain %to_uint %b %one %one %zero\n%x11 = OpPtrAccessChain %to_uint %y11 %one", "%x11", 3),
    # an operand without a value goes before all that
    ("%x12 = OpPtrAccessChain %to_uint %late_pointer %undefined", "%x12", 4),
    ("%x13 = OpPtrAccessChain %to_uint %b %undefined %four %late", "%x13", 4),
    ("%x14 = OpPtrAccessChain %to_uint %b %late %four %undefined", "%x14", 4),
    ("%x15 = OpPtrAccessChain %to_uint %b %one %four %late", "%x15", 4),
    ("%u16 = OpUndef %bool\n%x16 = OpSelect %to_uint %u16 %first %late_pointer", "%x16", 4),
    ("%x17 = OpSelect %to_uint %true %first %late_pointer", "%x17", 4),
    ("%x18 = OpSelect %to_uint %late_bool %first %first", "%x18", 4),
    ("%x19 = OpPtrEqual %bool %first %late_pointer", "%x19", 4),
    ("%x20 = OpPtrNotEqual %bool %late_pointer %first", "%x20", 4),
    ("%x21 = OpFunctionCall %to_uint %unready %first", None, 4),
    # a pointer that leads nowhere is made, and compared; the access faults
    ("%y22 = OpPtrAccessChain %to_uint %first %minus\n%z22 = OpPtrEqual %bool %y22 %first\n%x22 = OpLoad %uint %y22", "%x22", 3),
    ("%y23 = OpPtrAccessChain %to_uint %first %million\n%x23 = OpAtomicIAdd %uint %y23 %one %zero %one", "%x23", 3),
    ("%y24 = OpIAdd %uint %one %one\nOpBranch %join", None, 4),
]
FAULTS = text(
    """%unready = OpFunction %to_uint None %of_one
%given = OpFunctionParameter %to_uint
%unready_entry = OpLabel
OpReturnValue %never
%unreached = OpLabel
%never = OpPtrAccessChain %to_uint %given %one
OpReturnValue %never
OpFunctionEnd
""" + MAIN + "%first = OpAccessChain %to_uint %b %four %zero\nOpSelectionMerge %over None\nOpSwitch %which %over "
    + " ".join("%d %%case_%d" % (n, n) for n in range(len(CASES))) + "\n"
    + "".join("%%case_%d = OpLabel\n%s\n%s" % (n, body, "" if "OpBranch" in body else "OpBranch %over\n") for n, (body, _, _) in enumerate(CASES))
    + """%join = OpLabel
%phi = OpPhi %to_uint %late_pointer %case_24
OpBranch %over
%over = OpLabel
%late = OpIAdd %uint %one %one
%late_pointer = OpPtrAccessChain %to_uint %first %one
%late_bool = OpPtrEqual %bool %late_pointer %first
""" + END,
    "%which = OpSpecConstant %uint 100\n%undefined = OpUndef %uint\n%undefined_bool = OpUndef %bool\n%million = OpConstant %uint 1000000\n" + PARTS,
    names='OpName %unready "unready"\n', decorated="OpDecorate %which SpecId 0\n" + LAYOUT,
).replace("%b = OpVariable", "%of_one = OpTypeFunction %to_uint %to_uint\n%b = OpVariable")

# Four invocations, each with a pointer of its own into one of two buffers, that exchange what stands there over a barrier.
EXCHANGED = text(
    MAIN + """%i = OpLoad %uint %index
%bit = OpBitwiseAnd %uint %i %one
%is_odd = OpIEqual %bool %bit %one
%p = OpAccessChain %to_uint %a %zero %i
%q = OpAccessChain %to_uint %b %zero %i
%mine = OpSelect %to_uint %is_odd %p %q
%other = OpSelect %to_uint %is_odd %q %p
%ten = OpIAdd %uint %i %four
OpStore %mine %ten
OpControlBarrier %two %two %semantics
%has_next = OpULessThan %bool %i %three
OpSelectionMerge %out None
OpBranchConditional %has_next %then %else
%then = OpLabel
%next = OpPtrAccessChain %to_uint %other %one
OpBranch %out
%else = OpLabel
%start = OpPtrAccessChain %to_uint %other %back
OpBranch %out
%out = OpLabel
%theirs = OpPhi %to_uint %next %then %start %else
%is_mine = OpPtrEqual %bool %theirs %mine
%v = OpLoad %uint %theirs
OpControlBarrier %two %two %semantics
OpStore %theirs %i
""" + END,
    """%back = OpConstant %uint 0xFFFFFFFD
%semantics = OpConstant %uint 264
%array = OpTypeArray %uint %four
%block = OpTypeStruct %array
%to_input = OpTypePointer Input %uint
%index = OpVariable %to_input Input
""",
    decorated="OpDecorate %index BuiltIn LocalInvocationIndex\n" + FOUR, variables=("%a", "%b", "%index"), size=4,
)

# A pointer that goes over the elements, and the one before it, as locals of debug records: `here` is what the first leads to, by its
# dereference, `before` what the second does, by its declaration, and `behind` what the next one leads to, until the next turn.
SHOWN = text(
    MAIN + """%s0 = OpExtInst %void %set DebugScope %dmain
%l0 = OpExtInst %void %set DebugLine %source %four %four %zero %zero
%first = OpAccessChain %to_uint %b %zero %zero
%end = OpPtrAccessChain %to_uint %first %four
OpBranch %loop
%loop = OpLabel
%p = OpPhi %to_uint %first %entry %next %on
%last = OpPhi %to_uint %end %entry %p %on
%s1 = OpExtInst %void %set DebugScope %dmain
%l1 = OpExtInst %void %set DebugLine %source %five %five %zero %zero
%d1 = OpExtInst %void %set DebugValue %here %p %through
%d2 = OpExtInst %void %set DebugDeclare %before %last %plain
%is_over = OpPtrEqual %bool %p %end
OpLoopMerge %over %on None
OpBranchConditional %is_over %over %on
%on = OpLabel
%s2 = OpExtInst %void %set DebugScope %dmain
%l2 = OpExtInst %void %set DebugLine %source %six %six %zero %zero
%v = OpLoad %uint %p
%w = OpIAdd %uint %v %four
OpStore %p %w
%l3 = OpExtInst %void %set DebugLine %source %seven %seven %zero %zero
%next = OpPtrAccessChain %to_uint %p %one
%d3 = OpExtInst %void %set DebugValue %behind %next %through
OpBranch %loop
%over = OpLabel
%s3 = OpExtInst %void %set DebugScope %dmain
%l4 = OpExtInst %void %set DebugLine %source %eight %eight %zero %zero
""" + END,
    """%array = OpTypeArray %uint %four
%block = OpTypeStruct %array
%five = OpConstant %uint 5
%six = OpConstant %uint 6
%seven = OpConstant %uint 7
%eight = OpConstant %uint 8
%width = OpConstant %uint 32
%source = OpExtInst %void %set DebugSource %file
%unit = OpExtInst %void %set DebugCompilationUnit %one %four %source %two
%kind = OpExtInst %void %set DebugTypeFunction %zero %void
%dmain = OpExtInst %void %set DebugFunction %named_main %kind %source %one %zero %unit %named_main %zero %one
%number = OpExtInst %void %set DebugTypeBasic %named_uint %width %six %zero
%here = OpExtInst %void %set DebugLocalVariable %named_here %number %source %one %zero %dmain %zero
%before = OpExtInst %void %set DebugLocalVariable %named_before %number %source %one %zero %dmain %zero
%behind = OpExtInst %void %set DebugLocalVariable %named_behind %number %source %one %zero %dmain %zero
%dereference = OpExtInst %void %set DebugOperation %zero
%through = OpExtInst %void %set DebugExpression %dereference
%plain = OpExtInst %void %set DebugExpression
""",
    names="".join('%%named_%s = OpString "%s"\n' % (name, name) for name in ("main", "uint", "here", "before", "behind")) + '%file = OpString "p.comp"\n',
).replace('OpName %main "main"\n', "").replace(
    "OpMemoryModel", 'OpExtension "SPV_KHR_non_semantic_info"\n%set = OpExtInstImport "NonSemantic.Shader.DebugInfo.100"\nOpMemoryModel'
)
