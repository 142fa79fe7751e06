@x
% end
@y
changed
@z
