%% What document 01 answers to the packets that a node sends, kept apart from the library: header, cache, fragments.
%% Faults that a node does not make (a place named again, bad texts) are not known here and would show as a disagreement.
-module(packet_model).
-export([new/1, take/2, drop/1, header/1, cache/1, words/1, pending/1]).

-record(state, {coding, cache = #{}, lost = #{}, words = #{}, sequence = 0, due = 0, gathered = <<>>, sound = true}).

%% The coding of the headers' texts: utf8 or latin1.
new(Coding) -> #state{coding = Coding}.
cache(#state{cache = Cache}) -> Cache.
%% Place and text of each reference, by each list that was written since the start.
words(#state{words = Words}) -> maps:to_list(Words).
%% The record: sequence id, id due, gathered length.
pending(#state{due = 0}) -> {0, 0, 0};
pending(#state{sequence = Sequence, due = Due, gathered = Gathered}) -> {Sequence, Due, byte_size(Gathered)}.
drop(State) -> State#state{sequence = 0, due = 0, gathered = <<>>}.

%% {Answer, Payload, State}; the payload is none where none is complete, or where a text that it needs was refused earlier.
take(<<131, 68, Rest/binary>> = Packet, State) ->
    {References, Payload} = coded(Rest, State),
    plain(check(References, Payload, State), Packet, Payload, References, State);
take(<<131, 69, Sequence:64, Id:64, Rest/binary>>, State = #state{due = 0}) ->
    {References, Payload} = coded(Rest, State),
    start(check(References, Payload, State), Sequence, Id, Payload, References, State);
take(<<131, 69, _:64, _:64, Rest/binary>>, State) ->
    {References, _} = header(Rest),
    refuse({refused, 26, 0}, References, State);
take(<<131, 70, Sequence:64, Id:64, Payload/binary>>, State) -> continue(Sequence, Id, Payload, State).

plain(ok, Packet, Payload, References, State) ->
    Answer = {plain, byte_size(Packet) - byte_size(Payload), byte_size(Payload)},
    {Answer, given(sound(References, State), Payload), fill("plain", References, State)};
plain(Refusal, _, _, References, State) -> refuse(Refusal, References, State).

start(ok, Sequence, Id, Payload, References, State) ->
    Begun = (fill("pending", References, State))#state{sequence = Sequence, due = Id, gathered = <<>>, sound = sound(References, State)},
    gather(Payload, Begun);
start(Refusal, _, _, _, References, State) -> refuse(Refusal, References, State).

continue(Sequence, Id, Payload, State = #state{sequence = Pending, due = Due, gathered = Gathered}) ->
    if
        Due =:= 0; Sequence =/= Pending -> {{refused, 25, 0}, none, State};
        Id =/= Due -> {{refused, 24, 0}, none, State};
        byte_size(Gathered) + byte_size(Payload) > 65536 -> {{refused, 12, 0}, none, State};
        true -> gather(Payload, State)
    end.

gather(Payload, State = #state{due = Due, gathered = Before, sound = Sound}) ->
    Gathered = <<Before/binary, Payload/binary>>,
    case Due of
        1 -> {{complete, byte_size(Gathered)}, given(Sound, Gathered), drop(State)};
        _ -> {{pending, Due - 1, byte_size(Gathered)}, none, State#state{due = Due - 1, gathered = Gathered}}
    end.

given(true, Payload) -> Payload;
given(false, _) -> none.

refuse(Refusal, References, State = #state{lost = Lost}) ->
    {Refusal, none, State#state{lost = maps:merge(Lost, maps:from_list([{Place, true} || {new, Place, _} <- References]))}}.

%% The references in turn, then the payload's size.
check(References, Payload, #state{cache = Cache}) ->
    Refusals = [{refused, Number, I} || {I, Reference} <- lists:enumerate(0, References), Number <- [fault(Reference, Cache)], Number =/= 0],
    case Refusals of
        [First | _] -> First;
        [] when byte_size(Payload) > 65536 -> {refused, 12, 0};
        [] -> ok
    end.

fault({new, _, Text}, _) when byte_size(Text) > 32 -> 23;
fault({cached, Place}, Cache) when not is_map_key(Place, Cache) -> 21;
fault(_, _) -> 0.

%% The cache and the list.
fill(List, References, State = #state{cache = Cache, lost = Lost, words = Words}) ->
    New = maps:from_list([{Place, Text} || {new, Place, Text} <- References]),
    Filled = maps:merge(Cache, New),
    Entries = [{Place, maps:get(Place, Filled)} || Reference <- References, Place <- [element(2, Reference)]],
    State#state{cache = Filled, lost = maps:without(maps:keys(New), Lost), words = Words#{List => Entries}}.

%% No cached reference names a place whose latest text was refused.
sound(References, #state{lost = Lost}) -> not lists:any(fun(Place) -> is_map_key(Place, Lost) end, [Place || {cached, Place} <- References]).

%% The references with their texts in UTF-8.
coded(Rest, #state{coding = Coding}) -> {References, Payload} = header(Rest), {[coded_one(Reference, Coding) || Reference <- References], Payload}.

coded_one({new, Place, Text}, Coding) -> {new, Place, unicode:characters_to_binary(Text, Coding)};
coded_one(Cached, _) -> Cached.

%% The references of a header, from its count on, and the bytes after it.
header(<<0, Payload/binary>>) -> {[], Payload};
header(<<Count, Bytes/binary>>) ->
    Size = Count div 2 + 1,
    <<Flags:Size/binary, Rest/binary>> = Bytes,
    %% The low half of a byte comes first.
    Halves = lists:append([[Low, High] || <<High:4, Low:4>> <= Flags]),
    {References, [Spare | _]} = lists:split(Count, Halves),
    references(References, 8 * (1 + Spare band 1), Rest, []).

references([], _, Payload, Done) -> {lists:reverse(Done), Payload};
references([Half | More], Width, <<Index, Rest/binary>>, Done) ->
    Place = 256 * (Half band 7) + Index,
    case Half band 8 of
        0 -> references(More, Width, Rest, [{cached, Place} | Done]);
        8 -> <<Size:Width, Text:Size/binary, After/binary>> = Rest, references(More, Width, After, [{new, Place, Text} | Done])
    end.
