# a greeting
cat <<END
# $HOME is text here
END
echo "in $(date "+%Y") it ends" # done
