#!/usr/bin/env escript
%% -*- erlang -*-
%%! +Bd -noinput
%% Prints for modules the checksum of their functions, without lines and comments: module_sums.erl FOLDER MODULE..
%% A module is FOLDER/**/MODULE.beam with its debug_info, or else FOLDER/**/MODULE.erl. Where there is none the word is `missing`.
-mode(compile).

main([Folder | Modules]) -> [io:format("~ts ~ts~n", [Module, sum(Folder, Module)]) || Module <- Modules].

sum(Folder, Module) ->
    case {found(Folder, Module ++ ".beam"), found(Folder, Module ++ ".erl")} of
        {[Beam | _], _} -> of_forms(beam(Beam));
        {[], [Source | _]} -> of_forms(source(Source));
        {[], []} -> "missing"
    end.

found(Folder, Name) -> lists:sort(filelib:wildcard(filename:join([Folder, "**", Name]))).

beam(File) ->
    case beam_lib:chunks(File, [abstract_code]) of
        {ok, {_, [{abstract_code, {_, Forms}}]}} -> Forms;
        _ -> none
    end.

%% The files that a source includes are looked for where those of OTP stand.
source(File) ->
    Dir = filename:dirname(File),
    Above = filename:dirname(Dir),
    Includes = [Dir, filename:join(Above, "include"), filename:join([Above, "..", "stdlib", "include"]),
                filename:join([Above, "..", "..", "erts", "include"])],
    case epp:parse_file(File, [{includes, Includes}]) of
        {ok, Forms} -> Forms;
        {error, _} -> none
    end.

of_forms(none) -> "unreadable";
of_forms(Forms) ->
    case [Form || {error, _} = Form <- Forms] of
        [] ->
            Functions = [plain(erl_parse:map_anno(fun(_) -> 0 end, Form)) || {function, _, _, _, _} = Form <- Forms],
            Sum = erlang:md5(term_to_binary(Functions, [{minor_version, 2}])),
            lists:append([io_lib:format("~2.16.0b", [Byte]) || <<Byte>> <= Sum]);
        _ -> "unreadable"
    end.

%% A call of a function of erlang counts as the same with the module's name and without it.
plain({call, 0, {remote, 0, {atom, 0, erlang}, Function}, Arguments}) -> {call, 0, plain(Function), plain(Arguments)};
plain(Form) when is_tuple(Form) -> list_to_tuple(plain(tuple_to_list(Form)));
plain([First | Rest]) -> [plain(First) | plain(Rest)];
plain(Form) -> Form.
