%% Identifiers that V4_NC alone lets through: tag 88 with an ID of 2^15 or a Serial of 2^13 and more, tag 90 with 4 or 5 words.
-module(wide).
-export([identifiers/1, narrow/4, ends/2, layouts/0]).

%% All such identifiers of a value (see encodings).
identifiers(Value) -> canonical:all(fun identifier/1, Value).

identifier(Pid = {pid, _, Id, Serial, _}) when Id >= 1 bsl 15; Serial >= 1 bsl 13 -> Pid;
identifier(Reference = {ref, _, Words, _}) when length(Words) > 3 -> Reference;
identifier(_) -> none.

%% Whether the answer Without V4_NC is right for a message with the answer With it: the same where no identifier is wide, else 4 at
%% the first wide one. Identifiers are those of the message, or refused where it is refused with V4_NC too.
narrow(_, Same, Same, None) when None =:= []; None =:= refused -> true;
narrow(Bytes, {ok, _, _}, {refused, 4, Place}, Identifiers = [_ | _]) -> Place =:= first(Bytes, Identifiers);
narrow(Bytes, {refused, _, _}, {refused, 4, Place}, refused) -> begins(Bytes, Place);
narrow(_, _, _, _) -> false.

%% The offset of the tag of that one of the identifiers that comes first; none where none is found.
first(Bytes, Identifiers) -> lists:min([none | [At || Each <- Identifiers, At <- places(Bytes, head(Each), fields(Each))]]).

places(Bytes, Head, Fields) ->
    [At || {At, Size} <- binary:matches(Bytes, Head), binary:longest_common_prefix([after_node(Bytes, At + Size), Fields]) =:= byte_size(Fields)].

%% What follows the node at this offset; nothing where that is no atom.
after_node(Bytes, At) ->
    <<_:At/binary, Node/binary>> = Bytes,
    try canonical:after_atom(Node)
    catch error:function_clause -> <<>>
    end.

%% Whether a wide identifier begins at this offset; the words are counted before the node, which may be bad.
begins(Bytes, Place) ->
    case Bytes of
        <<_:Place/binary, 90, Count:16, _/binary>> -> Count =:= 4 orelse Count =:= 5;
        <<_:Place/binary, 88, _/binary>> -> is_wide_pid(after_node(Bytes, Place + 1));
        _ -> false
    end.

is_wide_pid(<<Id:32, Serial:32, _/binary>>) -> Id >= 1 bsl 15 orelse Serial >= 1 bsl 13;
is_wide_pid(_) -> false.

%% What stands before an identifier's node, and after it.
head({pid, _, _, _, _}) -> <<88>>;
head({ref, _, Words, _}) -> <<90, (length(Words)):16>>.
fields({pid, _, Id, Serial, Creation}) -> <<Id:32, Serial:32, Creation:32>>;
fields({ref, _, Words, Creation}) -> <<Creation:32, (words(Words))/binary>>.
words(Words) -> << <<Word:32>> || Word <- Words >>.

%% Pids and references at the ends of all ranges.
ends(Node, Creation) ->
    [{pid, Node, Id, Serial, Creation} || Id <- ids(), Serial <- serials()]
        ++ [{ref, Node, Words, Creation} || Count <- lists:seq(1, 5), Words <- word_ends(Count)].

ids() -> [0, (1 bsl 15) - 1, 1 bsl 15, (1 bsl 28) - 1, 1 bsl 28, (1 bsl 32) - 1].
serials() -> [0, (1 bsl 13) - 1, 1 bsl 13, (1 bsl 32) - 1].
word_ends(Count) -> [lists:seq(1, Count) | [lists:duplicate(Count, Word) || Word <- [0, (1 bsl 18) - 1, 1 bsl 18, (1 bsl 32) - 1]]].

%% Each layout of identifiers at the ends, up to 7 words: the bytes, whether they are right with V4_NC, and without.
layouts() ->
    Node = <<119, 3, "a@b">>,
    Pids = [pid_layout(Tag, Node, Id, Serial) || Tag <- [{88, 32}, {103, 8}], Id <- ids(), Serial <- serials()],
    Pids ++ [reference_layout(Tag, Node, Words) || Tag <- [{90, 32}, {114, 8}], Count <- lists:seq(1, 7), Words <- word_ends(Count)].

pid_layout({Tag, Width}, Node, Id, Serial) ->
    Narrow = Id < 1 bsl 15 andalso Serial < 1 bsl 13,
    {<<131, Tag, Node/binary, Id:32, Serial:32, 1:Width>>, Tag =:= 88 orelse Narrow, Narrow}.

reference_layout({Tag, Width}, Node, Words) ->
    Count = length(Words),
    Narrow = Count =< 3 andalso (Tag =:= 90 orelse hd(Words) < 1 bsl 18),
    {<<131, Tag, Count:16, Node/binary, 1:Width, (words(Words))/binary>>, (Tag =:= 90 andalso Count =< 5) orelse Narrow, Narrow}.
