%% Where a text goes wrong, with the node's own decoder for a judge: a byte is bad where no bytes after it make a character of it.
-module(texts).
-export([wrong_at/2]).

-define(CHARACTERS_MOST, 255).
%% The ends of all ranges of a character's later bytes.
-define(LATER, [16#80, 16#8f, 16#90, 16#9f, 16#a0, 16#bf]).

%% Whether an atom of the message, by its tag and length, has a text that goes wrong at this offset.
wrong_at(Bytes, Place) -> lists:any(fun(At) -> is_fault(Place - At, At, Bytes) end, lists:seq(1, Place - 1)).

%% Whether the atom at this offset has a text that goes wrong so many bytes after its tag.
is_fault(After, At, Bytes) ->
    case Bytes of
        <<_:At/binary, 119, Size, Text:Size/binary, _/binary>> -> utf8(Text, 0, 0) =:= After - 2;
        <<_:At/binary, 118, Size:16, Text:Size/binary, _/binary>> -> utf8(Text, 0, 0) =:= After - 3;
        <<_:At/binary, 100, Size:16, _:Size/binary, _/binary>> -> Size > ?CHARACTERS_MOST andalso After - 3 =:= ?CHARACTERS_MOST;
        _ -> false
    end.

%% The first byte after 255 characters, or the first that is bad; none of a text that is sound.
utf8(Text, _, At) when At =:= byte_size(Text) -> none;
utf8(_, ?CHARACTERS_MOST, At) -> At;
utf8(Text, Count, At) ->
    case Text of
        <<_:At/binary, Character/utf8, _/binary>> -> utf8(Text, Count + 1, At + byte_size(<<Character/utf8>>));
        <<_:At/binary, Rest/binary>> -> At + bad(Rest, 1)
    end.

%% Of bytes that no character begins: the first that ends what could go on; the first of all where only more is missing.
bad(Rest, Size) when Size > byte_size(Rest) -> 0;
bad(Rest, Size) ->
    case goes_on(binary:part(Rest, 0, Size), 3) of
        true -> bad(Rest, Size + 1);
        false -> Size - 1
    end.

goes_on(<<_/utf8>>, _) -> true;
goes_on(_, 0) -> false;
goes_on(Bytes, More) -> lists:any(fun(Byte) -> goes_on(<<Bytes/binary, Byte>>, More - 1) end, ?LATER).
