%% The differences between the papers and the node that the papers themselves make: each with its clause and a test that the reason holds.
-module(differences).
-export([list/0, node_only/4, ours_only/1, same_on_node/2, other_bytes/2]).

%% Name, what differs, the clause of document 01 or of a change request.
list() ->
    [{tag_outside, "the node reads tags 80, 99, 112", "Outside: tags 67, 78, 80, 99, 112 and 117 (refused, 3)"},
     {atom_index, "the node reads an index of its own atom table, tags 73 and 75, as an atom", "3: tag not in the table; any other tag there is 4"},
     {sign, "the node takes any Sign but 0 as minus", "110, 111: Sign 0 or 1"},
     {pid_limits, "the node reads tag 103 with 32 bits each", "103: ID under 2^15, Serial under 2^13; #109 widens 88 alone"},
     {port_limit, "the node reads ports of 32 bits", "89, 102: ID under 2^28"},
     {word_count, "the node reads tag 114 with 4 and 5 words, the first under 2^18", "114: 2-byte word count 1..3; #109 widens 90 alone"},
     {wide_read, "the node's binary_to_term, which knows no connection, reads 88 with 32 bits each and 90 with 4 and 5 words", "#109: with V4_NC on"},
     {wide_sent, "the node sends them on a connection without V4_NC", "#109: with V4_NC on"},
     {wide_taken, "the node takes them from a connection without V4_NC", "#109: with V4_NC on"},
     {arity_tag, "the node reads an arity with any integer's tag", "another than 97 for an arity, known or not, is 4"},
     {depth, "the node has no such depth", "Depth at most 64"},
     {rows, "the node has no rows", "Rows at most 8,192"},
     {left_over, "the node leaves bytes after the term unread", "A standalone term is 131, one term, end"},
     {long, "the node has no such size", "Term bytes or payload at most 65,536"},
     {long_output, "the canonical form is longer than the lent output", "11: output shorter than the canonical form"},
     {own_identifier, "of its own (its name, its Creation) the node reads pids of 15 and 13 bits, ports of 28, references of 3 words, the first under 2^18",
      "88: all 32 bits; 120: 8-byte ID; 90: up to 5 words"},
     {own_closes, "the node closes a connection on which others of its own come", "as there"},
     {zero_sign, "0.0 =:= -0.0, as keys too", "70: the meaning is the 64 bits, so the two zeros differ"},
     {zero_words, "the node ignores zero words at a reference's end, in keys too", "90: words; nothing says that zero words carry nothing"},
     {several, "both of these", "as there"},
     {pair_order, "the node writes pairs in an order of its own: by its order of terms, over 32 pairs by a hash",
      "#103: the writer puts pairs in rising byte order of the key's canonical form"}].

%% The node reads these bytes as Term, of which it used so many; we refuse them with V4_NC on. The reason's name, or none.
node_only({refused, Number, Place}, Bytes, Term, Used) ->
    case Number of
        3 -> tag(binary:at(Bytes, Place));
        4 -> field(binary:part(Bytes, Place, byte_size(Bytes) - Place), Bytes, Place);
        8 -> named(measure:depth(Term) > 64, depth);
        9 -> named(measure:rows(Term) > 8192, rows);
        10 -> named(Place =:= Used, left_over);
        11 -> named(byte_size(term_to_binary(Term, [{minor_version, 2}])) > 65536, long_output);
        12 -> named(byte_size(Bytes) > 65536, long);
        _ -> none
    end.

named(true, Name) -> Name;
named(false, _) -> none.

tag(Tag) when Tag =:= 73; Tag =:= 75 -> named(is_atom(binary_to_term(<<131, Tag, 0:24>>)), atom_index);
tag(Tag) -> named(lists:member(Tag, [67, 78, 80, 99, 112, 117]), tag_outside).

%% The field that breaks its rule, of the term that begins here, or the part's tag.
field(<<Tag, _/binary>>, _, _) when Tag =:= 73; Tag =:= 75 -> tag(Tag);
field(<<110, _, Sign, _/binary>>, _, _) when Sign > 1 -> sign;
field(<<111, _:32, Sign, _/binary>>, _, _) when Sign > 1 -> sign;
field(<<103, Rest/binary>>, _, _) ->
    <<Id:32, Serial:32, _/binary>> = canonical:after_atom(Rest),
    named(Id >= 1 bsl 15 orelse Serial >= 1 bsl 13, pid_limits);
field(<<Tag, Rest/binary>>, _, _) when Tag =:= 89; Tag =:= 102 ->
    <<Id:32, _/binary>> = canonical:after_atom(Rest),
    named(Id >= 1 bsl 28, port_limit);
field(<<114, Count:16, _/binary>>, _, _) -> named(Count =:= 4 orelse Count =:= 5, word_count);
field(_, Bytes, Place) -> named(lists:any(fun(At) -> arity_at(Bytes, At) =:= Place end, lists:seq(0, Place - 1)), arity_tag).

%% Where the arity of the external fun at this offset stands, if one stands there.
arity_at(Bytes, At) ->
    try
        <<_:At/binary, 113, Module/binary>> = Bytes,
        byte_size(Bytes) - byte_size(canonical:after_atom(canonical:after_atom(Module)))
    catch error:_ -> none
    end.

%% We read a term with this canonical form, the node refuses it. The reason's name, or none.
ours_only(Output) -> canonical:find(fun refused_by_node/1, canonical:value(Output)).

refused_by_node({port, "nonode@nohost", Id, 0}) when Id >= 1 bsl 28 -> own_identifier;
refused_by_node({ref, "nonode@nohost", [First | More], 0}) when First >= 1 bsl 18; length(More) > 2 -> own_identifier;
refused_by_node({pid, "nonode@nohost", Id, Serial, 0}) when Id >= 1 bsl 15; Serial >= 1 bsl 13 -> own_identifier;
refused_by_node({map, Pairs}) -> equal_keys([Key || {Key, _} <- Pairs]);
refused_by_node(_) -> none.

%% Why two of the keys are equal for the node.
equal_keys([]) -> none;
equal_keys([Key | Rest]) ->
    case [Why || Other <- Rest, Why <- [canonical:why_same(Key, Other)], Why =/= none] of
        [Why | _] -> Why;
        [] -> equal_keys(Rest)
    end.

%% Two canonical forms differ though the node finds the terms =:=. The reason's name, or none.
same_on_node(A, B) -> canonical:why_same(canonical:value(A), canonical:value(B)).

%% The canonical form differs from the node's own writing of the term. The reason's name, or none.
other_bytes(Output, Own) ->
    case canonical:bytes(canonical:value(Own)) of
        Output -> pair_order;
        Ordered -> same_on_node(Output, Ordered)
    end.
