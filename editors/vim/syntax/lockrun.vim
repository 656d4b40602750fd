" Colours for scripts of lockrun (docs/SCRIPT.md). Copy editors/vim into ~/.vim, or add it to 'runtimepath'.
" tools/compare_words holds the words to those that a script knows.
if exists('b:current_syntax')
  finish
endif

" Only a line's first word says something; what stands behind it is names and numbers.
syntax match lockrunHeader /\%1l^\(lockrun\|ticks\) 1$/
syntax match lockrunComment /\%>1l^#.*$/
syntax match lockrunUnknown /\%>1l^[^# ]\+/
syntax match lockrunNumber /\%>1l \zs\(0\|[1-9][0-9]*\)\ze\( \|$\)/

" The first line says whether it is a script of ticks or one of locks.
if getline(1) ==# 'ticks 1'
  syntax match lockrunDeclares /\%>1l^\(sleeper\)\ze\( \|$\)/
  syntax match lockrunFrames /\%>1l^\(done\)\ze\( \|$\)/
  syntax match lockrunSleeps /\%>1l^\(sleep\|sleepsig\)\ze\( \|$\)/
  syntax match lockrunWakes /\%>1l^\(wakeone\|wakeup\|signal\)\ze\( \|$\)/
  syntax match lockrunTicks /\%>1l^\(tick\)\ze\( \|$\)/
else
  syntax match lockrunDeclares /\%>1l^\(mutex\|rw\|sx\|cond\|chan\)\ze\( \|$\)/
  syntax match lockrunFrames /\%>1l^\(thread\|end\|schedule\|done\)\ze\( \|$\)/
  syntax match lockrunTakes /\%>1l^\(lock\|rlock\|wlock\|slock\|xlock\)\ze\( \|$\)/
  syntax match lockrunTries /\%>1l^\(trylock\|tryrlock\|trywlock\|tryslock\|tryxlock\|endtry\)\ze\( \|$\)/
  syntax match lockrunReleases /\%>1l^\(unlock\|runlock\|wunlock\|sunlock\|xunlock\)\ze\( \|$\)/
  syntax match lockrunTable /\%>1l^\(set\|add\|get\)\ze\( \|$\)/
  syntax match lockrunPriority /\%>1l^\(prio\|show\)\ze\( \|$\)/
  syntax match lockrunSleeps /\%>1l^\(wait\|msleep\)\ze\( \|$\)/
  syntax match lockrunWakes /\%>1l^\(signal\|broadcast\|wakeup_one\|wakeup\)\ze\( \|$\)/
endif

highlight default link lockrunHeader PreProc
highlight default link lockrunComment Comment
highlight default link lockrunUnknown Error
highlight default link lockrunNumber Number
highlight default link lockrunDeclares Type
highlight default link lockrunFrames Structure
highlight default link lockrunTakes Statement
highlight default link lockrunTries Conditional
highlight default link lockrunReleases Statement
highlight default link lockrunTable Function
highlight default link lockrunPriority Function
highlight default link lockrunSleeps Keyword
highlight default link lockrunWakes Keyword
highlight default link lockrunTicks Statement

let b:current_syntax = 'lockrun'
