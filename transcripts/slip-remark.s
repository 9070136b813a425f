; a remark
