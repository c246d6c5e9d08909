%% A file that gather reads: its text, in which the variables of a release's start script are replaced; its one term; and the lines
%% at which parts of that stand. A source is the name of a file and its text, which is `none` where it isn't one.
-module(gather_source).
-export([read/2, binary/1, term/1, parsed/1, words/1, at/2, at/3, at_element/3, second/3]).
-import(gather_text, [refuse/2, text/2]).

%% ---- Texts

%% A file as a source. In one that ends in .src, variables are replaced, as the start script of a release does. `comment` of the
%% options is what begins a comment in it, if that isn't %.
read(File, Options) ->
    Bytes = bytes(File),
    Encoding = case epp:read_encoding_from_binary(Bytes) of none -> utf8; Told -> Told end,
    Text = unicode:characters_to_list(Bytes, Encoding),
    is_list(Text) orelse refuse("~ts line ~b: it isn't UTF-8", [File, line_of_fault(Text)]),
    case filename:extension(File) of
        ".src" -> #{file => File, text => replaced(Text, maps:get(comment, Options, $%), none, 1, {File, Options})};
        _ -> #{file => File, text => Text}
    end.

line_of_fault({_, Good, _}) -> 1 + length([$\n || $\n <- Good]).

%% A file whose bytes aren't a text.
binary(File) -> {bytes(File), #{file => File, text => none}}.

bytes(File) ->
    case file:read_file(File) of
        {ok, Bytes} -> Bytes;
        {error, Why} -> refuse("~ts: ~ts", [File, file:format_error(Why)])
    end.

%% A text with values in place of ${NAME} and ${NAME:-VALUE}, but for those in comments. `Mark` begins a comment: % anywhere, # where no
%% word is open. `Inside` is the quote that is open, `comment`, `word` or `none`.
replaced([], _, _, _, _) -> [];
replaced([$\n | Rest], Mark, Inside, Line, From) when is_atom(Inside) -> [$\n | replaced(Rest, Mark, none, Line + 1, From)];
replaced([$\n | Rest], Mark, Quote, Line, From) -> [$\n | replaced(Rest, Mark, Quote, Line + 1, From)];
replaced([C | Rest], Mark, comment, Line, From) -> [C | replaced(Rest, Mark, comment, Line, From)];
replaced("${" ++ Rest, Mark, Inside, Line, From) ->
    case lists:splitwith(fun(C) -> C =/= $} andalso C =/= $\n end, Rest) of
        {Word, [$} | Behind]} -> value(Word, Line, From) ++ replaced(Behind, Mark, within(Inside, Mark), Line, From);
        _ -> "${" ++ replaced(Rest, Mark, within(Inside, Mark), Line, From)
    end;
replaced([$\\, C | Rest], Mark, Inside, Line, From) when C =/= $\n ->
    [$\\, C | replaced(Rest, Mark, within(Inside, Mark), Line, From)];
replaced([$$, C | Rest], $%, none, Line, From) when C =/= $\n, C =/= $\\ -> [$$, C | replaced(Rest, $%, none, Line, From)];
replaced([Mark | Rest], Mark, none, Line, From) -> [Mark | replaced(Rest, Mark, comment, Line, From)];
replaced([C | Rest], Mark, word, Line, From) when C =:= $\s; C =:= $\t; C =:= $\r -> [C | replaced(Rest, Mark, none, Line, From)];
replaced([Quote | Rest], Mark, Quote, Line, From) -> [Quote | replaced(Rest, Mark, within(none, Mark), Line, From)];
replaced([C | Rest], Mark, Inside, Line, From) when is_atom(Inside), C =:= $' orelse C =:= $" -> [C | replaced(Rest, Mark, C, Line, From)];
replaced([C | Rest], Mark, none, Line, From) when C =:= $\s; C =:= $\t; C =:= $\r -> [C | replaced(Rest, Mark, none, Line, From)];
replaced([C | Rest], Mark, Inside, Line, From) -> [C | replaced(Rest, Mark, within(Inside, Mark), Line, From)].

%% What is open behind a letter.
within(none, $#) -> word;
within(Inside, _) -> Inside.

%% The value of a variable: of --env, of the node, of the environment; else, or where that is empty, its default. `behind` of the
%% options is what --env says behind any --node.
value(Word, Line, {File, Options}) ->
    [Name | Default] = string:split(Word, ":-"),
    Given = values(Name, env, Options),
    Own = [atom_to_list(Node) || "NODE_NAME" <- [Name], #{name := Node} <- [Options]],
    case {Given ++ Own ++ [V || V <- [os:getenv(Name)], V =/= false], Default} of
        {["" | _], [_]} -> hd(Default);
        {[Value | _], _} -> Value;
        {[], [_]} -> hd(Default);
        {[], []} -> refuse("~ts line ~b: ${~ts} isn't set~ts", [File, Line, Name, advice(Name, values(Name, behind, Options), Options)])
    end.

%% What one of the options that has a list of NAME=VALUE says of a variable, the last one first.
values(Name, Option, Options) ->
    [V || E <- lists:reverse(maps:get(Option, Options, [])), [N, V] <- [string:split(E, "=")], N =:= Name].

%% How a variable is set. Behind a --node it holds for that node alone, as who set it there hasn't seen.
advice(Name, [], _) -> text(": give --env ~ts=VALUE", [Name]);
advice(Name, _, #{name := Node}) ->
    text(" at ~ts: give --env ~ts=VALUE before the first --node, since behind one it holds for that node alone", [Node, Name]).

%% The words of a text as erl reads an args file, each with its line: quotes hold a word together, and # begins a comment where a
%% word could begin.
words(#{text := Text}) -> words(Text, 1, none, []).

words([], _, Word, Done) -> lists:reverse(ended(Word, Done));
words([$\n | Rest], Line, Word, Done) -> words(Rest, Line + 1, none, ended(Word, Done));
words([C | Rest], Line, Word, Done) when C =:= $\s; C =:= $\t; C =:= $\r -> words(Rest, Line, none, ended(Word, Done));
words([$# | Rest], Line, none, Done) -> words(lists:dropwhile(fun(C) -> C =/= $\n end, Rest), Line, none, Done);
words([Quote | Rest], Line, Word, Done) when Quote =:= $'; Quote =:= $" ->
    {Inside, Behind} = lists:splitwith(fun(C) -> C =/= Quote end, Rest),
    More = length([$\n || $\n <- Inside]),
    words(tl(Behind ++ " "), Line + More, longer(Inside, Line, Word), Done);
words([C | Rest], Line, Word, Done) -> words(Rest, Line, longer([C], Line, Word), Done).

longer(More, Line, none) -> {Line, lists:reverse(More)};
longer(More, _, {Line, Turned}) -> {Line, lists:reverse(More, Turned)}.

ended(none, Done) -> Done;
ended({Line, Turned}, Done) -> [{Line, lists:reverse(Turned)} | Done].

%% ---- Terms

%% The one term of a source.
term(#{file := File} = Source) ->
    case terms(Source) of
        [{_, Term}] -> Term;
        [] -> refuse("~ts: it has no term: it is empty", [File]);
        [_, {Line, _} | _] = Terms -> refuse("~ts line ~b: it has ~b terms and not one", [File, Line, length(Terms)])
    end.

%% The terms of a source, each with the line at which it begins.
terms(#{file := File, text := Text}) ->
    case erl_scan:string(Text ++ "\n") of
        {ok, Tokens, _} -> [{line(hd(One)), parsed_term(One, File)} || One <- cut(Tokens, [], [])];
        {error, {Line, Module, Why}, _} -> refuse("~ts line ~b: ~ts", [File, Line, Module:format_error(Why)])
    end.

parsed_term(Tokens, File) ->
    case {erl_parse:parse_term(Tokens), lists:last(Tokens)} of
        {{ok, Term}, {dot, _}} -> Term;
        {_, Last} when element(1, Last) =/= dot ->
            refuse("~ts line ~b: no dot ends the term that begins here", [File, line(hd(Tokens))]);
        {{error, {Line, Module, Why}}, _} -> refuse("~ts line ~b: ~ts", [File, Line, Module:format_error(Why)])
    end.

%% Tokens, cut behind each dot.
cut([], [], Done) -> lists:reverse(Done);
cut([], Open, Done) -> cut([], [], [lists:reverse(Open) | Done]);
cut([{dot, _} = Dot | Rest], Open, Done) -> cut(Rest, [], [lists:reverse([Dot | Open]) | Done]);
cut([Token | Rest], Open, Done) -> cut(Rest, [Token | Open], Done).

line(Token) -> erl_anno:line(element(2, Token)).

%% The term that stands in a word, or `error`.
parsed(Word) ->
    try [{_, Term}] = terms(#{file => "", text => Word ++ "."}), {ok, Term}
    catch throw:_ -> error; error:_ -> error
    end.

%% ---- Lines

%% Where a part of the one term of a source stands: the file, and its line where that is known.
at(#{file := File} = Source, Part) -> at_line(File, lines(Source, fun(P) -> P =:= Part end)).

%% The same for a part of a part.
at(#{file := File} = Source, Whole, Part) ->
    Behind = lists:dropwhile(fun({_, P}) -> P =/= Whole end, parts(Source)),
    Inner = [Line || {Line, P} <- Behind, P =:= Part],
    at_line(File, Inner ++ [Line || {Line, _} <- lists:sublist(Behind, 1)]).

%% The same for an element of a list, which may also be a part of another one: by what stands in the list from there on.
at_element(Source, List, Element) -> at(Source, List, lists:dropwhile(fun(E) -> E =/= Element end, List)).

%% Where the second one stands of the elements of a list that have a key.
second(#{file := File} = Source, List, Key) ->
    [First, Second | _] = [E || E <- List, is_tuple(E), tuple_size(E) > 0, element(1, E) =:= Key],
    Behind = lists:dropwhile(fun({_, P}) -> P =/= List end, parts(Source)),
    Lines = [Line || {Line, P} <- Behind, P =:= Second],
    at_line(File, case First of Second -> lists:nthtail(min(1, length(Lines)), Lines); _ -> Lines end).

at_line(File, []) -> File;
at_line(File, [Line | _]) -> text("~ts line ~b", [File, Line]).

lines(Source, Fits) -> [Line || {Line, Part} <- parts(Source), Fits(Part)].

%% All parts of the one term of a source, each with its line, in the order of the text.
parts(#{text := none}) -> [];
parts(#{text := Text}) ->
    case erl_scan:string(Text ++ "\n") of
        {ok, Tokens, _} ->
            case erl_parse:parse_exprs(hd(cut(Tokens, [], []))) of
                {ok, [Form]} -> parts_of(Form);
                _ -> []
            end;
        _ -> []
    end.

parts_of({tuple, At, Forms}) ->
    Inner = [parts_of(Form) || Form <- Forms],
    [{erl_anno:line(At), list_to_tuple([Part || [{_, Part} | _] <- Inner])} | lists:append(Inner)];
parts_of({cons, At, Head, Tail}) ->
    [{_, First} | _] = InHead = parts_of(Head),
    [{_, Rest} | _] = InTail = parts_of(Tail),
    [{erl_anno:line(At), [First | Rest]} | InHead ++ InTail];
parts_of(Form) ->
    [{erl_anno:line(element(2, Form)), try erl_parse:normalise(Form) catch error:_ -> unknown end}].
