%% Seeded random terms of the node that runs this, and its own term_to_binary of them.
-module(node_terms).
-export([term/2, wide/0, bytes/0]).

%% A term and its bytes, with one of the node's ways to write it.
bytes() ->
    Options = [{minor_version, pick:range(0, 2)} | pick:one_of([[], [deterministic]])],
    term_to_binary(pick:weighted([{40, fun() -> term(pick:range(0, 4), fun any_atom/0) end}, {4, fun special/0}]), Options).

%% A term with a fun and its code, which document 01 leaves out, with an alias (in OTP 25 a reference of three words), or with a wide identifier.
special() ->
    Depth = pick:range(0, 2),
    Alias = alias(),
    unalias(Alias),
    {term(Depth, fun any_atom/0), pick:one_of([fun() -> Depth end, Alias, wide(), wide()]), term(Depth, fun any_atom/0)}.

%% A foreign pid or reference that may need V4_NC.
wide() -> foreign_identifier(fun encodings:wide_identifier/0).

any_atom() -> list_to_atom(pick:text(pick:weighted([{6, fun() -> pick:range(0, 12) end}, {1, fun() -> pick:range(13, 255) end}]))).

%% A term up to Depth levels below its top; NewAtom makes its atoms.
term(Depth, NewAtom) when Depth =< 0 -> leaf(NewAtom);
term(Depth, NewAtom) -> pick:weighted([{1, fun() -> leaf(NewAtom) end}, {2, fun() -> inner(Depth - 1, NewAtom) end}]).

leaf(NewAtom) ->
    pick:weighted([{4, fun integer/0}, {2, fun float/0}, {4, NewAtom}, {2, fun bit_string/0}, {3, fun() -> pick:one_of([[], {}, #{}]) end},
                   {1, fun() -> binary_to_list(pick:bytes(pick:range(1, 40))) end}, {2, fun own_identifier/0},
                   {2, fun() -> foreign_identifier(fun encodings:identifier/0) end},
                   {1, fun() -> erlang:make_fun(NewAtom(), NewAtom(), pick:range(0, 255)) end}]).

integer() -> pick:one_of([1, -1]) * pick:bits(pick:width(3000)) + pick:one_of([0, 0, 1, -1]).

float() ->
    case <<(pick:bits(64)):64>> of
        <<Float/float>> -> pick:one_of([Float, 0.0, -0.0, 1.0, float(pick:range(-100, 100))]);
        _ -> 1.5
    end.

bit_string() -> Size = pick:one_of([0, 8, pick:range(0, 80), 8 * pick:range(60, 70), pick:range(500, 700)]), <<(pick:bits(Size + 1)):Size>>.

own_identifier() -> pick:one_of([self(), pick:one_of(processes()), pick:one_of(erlang:ports()), make_ref()]).

foreign_identifier(Make) ->
    case Make() of
        Own when element(2, Own) =:= "nonode@nohost" -> foreign_identifier(Make);
        Foreign -> binary_to_term(encodings:standalone(Foreign))
    end.

inner(Depth, NewAtom) ->
    Next = fun() -> term(Depth, NewAtom) end,
    Many = fun() -> pick:some(pick:range(0, 5), Next) end,
    pick:weighted([{4, fun() -> list_to_tuple(Many()) end}, {4, Many}, {2, fun() -> [Next() | pick:one_of([Next(), [Next() | Next()]])] end},
                   {4, fun() -> maps:from_list([{Next(), Next()} || _ <- lists:seq(1, pick:range(0, 5))]) end},
                   {1, fun() -> maps:from_list([{{Key, NewAtom()}, term(0, NewAtom)} || Key <- lists:seq(1, pick:range(30, 45))]) end},
                   {1, fun() -> list_to_tuple(pick:some(pick:range(250, 260), fun() -> pick:range(0, 300) end)) end}]).
